"""Faults: their codes, names and texts."""

NAMES = {
    "E01": "Empty", "E02": "TooLong", "E03": "BadCharacter", "E04": "UnknownVerb", "E05": "BadOperand",
    "E06": "OpenQuote", "E10": "NoConsole", "E11": "ConsoleOffline", "E12": "LogonRequired", "E13": "Revoked",
    "E14": "BadLogon", "E15": "AlreadyOn", "E16": "NotOn", "E17": "DeniedConsole", "E20": "DeniedProfile",
    "E21": "DeniedGroup", "E30": "NoUnit", "E31": "NonCancelable", "E32": "Cancelable", "E33": "UnitExists",
    "E34": "NoDevice", "E35": "DeviceState", "E36": "DeviceInUse", "E37": "NoVolume", "E38": "NoReply",
    "E39": "NoTarget", "E40": "Halted", "E41": "LastMaster", "E42": "WrongKind", "E45": "ReplyExists",
    "E50": "NotSpecial", "E51": "NotOwner", "E52": "Exists", "E53": "Missing", "E55": "InUse", "E56": "BatchChanged",
    "E57": "NotEmpty", "E60": "RowFault",
}


class Fault(Exception):
    """A refusal: its code, the details that follow the name in its text, and the rule that decided, `-` for none."""

    def __init__(self, code: str, *details: object, rule: str = "-") -> None:
        super().__init__(code, *details)
        self.code, self.rule = code, rule
        self.text = " ".join([NAMES[code], *map(str, details)])

    def printed(self) -> str:
        """The line on standard error."""
        return f"{self.code} {self.text}"


def wants(holds: object, code: str, *details: object) -> None:
    """Refuses with this fault unless it holds."""
    if not holds:
        raise Fault(code, *details)
