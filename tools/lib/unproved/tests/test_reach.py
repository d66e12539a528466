"""What compiled functions are called in the sources, and how main reaches them."""
import unittest

from lib.unproved import reach

CALLS = {
    "main": {"a::start"},
    "a::start": {"a::far", "b::run::<#12>"},
    "a::far": {"a::farther"},
    "a::farther": {"a::farthest"},
    "a::farthest": {"c::work"},
    "b::run::<#12>": {"static.4", "core::iter::Filter::next::<#3>"},
    "static.4": {"c::work"},
    "core::iter::Filter::next::<#3>": {"b::fn::run::filter"},
}


class Names(unittest.TestCase):
    def test_the_last_name(self) -> None:
        for symbol, found in (
            ("opc_cli::made::report_made::<#3615fc0492b14954>", ("opc_cli", {"report_made"})),
            ("opc_a::read", ("opc_a", {"read"})), ("opc_a::user::UserPartialEq::eq", ("opc_a", {"eq"})),
            ("core::clone::Clone+copy::clone::<32'opc_a::entry::Entry>", ("core", {"clone"})),
            ("core::count::<i32,30'core::cmp::text::CharPartialEq{}>", ("core", {"count"})),
            ("opc_a::connect::fn::Connects::groups_of::filter", ("opc_a", {"Connects", "groups_of", "filter"})),
            ("opc_a::b::fn::place::find+FnMut::call_mut", ("opc_a", {"place", "find", "FnMut", "call_mut"})),
            ("opcmds::main+start", ("opcmds", {"main", "start"})),
        ):
            self.assertEqual(reach.parts_of(symbol), found)

    def test_of_one_crate(self) -> None:
        names = reach.Names([("opc_a", "read"), ("opc_b", "write")])
        self.assertTrue(names.has("opc_a::file::Lines::read::<#1>"))
        for symbol in ("opc_b::file::read", "opc_a::write", "opc_a::read::readers", "core::read::<6'opc_a::read>"):
            self.assertFalse(names.has(symbol), symbol)

    def test_what_the_kit_makes(self) -> None:
        self.assertTrue(reach.is_made("opc_a::Destruct++none::drop::<16'std_heap::Global>"))
        self.assertTrue(reach.is_made("core::core++slice++sort++merge+FnOnce::call_once::<#57>"))
        self.assertFalse(reach.is_made("opc_a::read::<#1++>"))
        self.assertTrue(reach.is_of_closure("opc_a::b::fn::place::find+FnMut::call_mut"))
        self.assertFalse(reach.is_of_closure("opc_a::b::place"))


class Ways(unittest.TestCase):
    def test_a_shortest_path(self) -> None:
        callers = reach.called_from(CALLS)
        self.assertEqual(
            reach.on_the_way(callers, ["c::work"]), {"main", "a::start", "b::run::<#12>", "static.4", "c::work"}
        )

    def test_a_path_through_the_kit(self) -> None:
        way = reach.on_the_way(reach.called_from(CALLS), ["b::fn::run::filter"])
        whole = reach.whole(way)
        self.assertTrue(whole.has("core::iter::Filter::next::<#9>"))
        self.assertTrue(whole.has("b::run"))
        self.assertFalse(whole.has("a::far"))


if __name__ == "__main__":
    unittest.main()
