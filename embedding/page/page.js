const LIMIT = 16_777_216; // the most bytes of a policy file
const byId = (id) => document.getElementById(id);
const form = byId("question");
// The policy files that were chosen, by the field.
const files = {};

const kind = () => form.elements.kind.value;
const isFor = (element) => !element.dataset.for || element.dataset.for.split(" ").includes(kind());

// A text, its words with meanings marked.
function marked(line) {
  return line.split(MEANT).map((part) => {
    if (!(part in MEANINGS)) return part;
    const word = document.createElement("abbr");
    word.title = MEANINGS[part];
    word.textContent = part;
    return word;
  });
}

// Each line is an element of its own, so that a long one wraps under its beginning.
function show(id, text) {
  byId(id).replaceChildren(...text.split(/(?<=\n)/).filter(Boolean).map((line) => {
    const shown = document.createElement("span");
    shown.append(...marked(line));
    return shown;
  }));
}

// The meanings of the words of an answer, for whoever has no pointer.
function showMeanings() {
  const words = new Set([...document.querySelectorAll("pre abbr")].map((word) => word.textContent));
  byId("meanings").hidden = words.size === 0;
  byId("meanings").querySelector("dl").replaceChildren(...[...words].flatMap((word) => ["dt", "dd"].map((tag) => {
    const element = document.createElement(tag);
    element.textContent = tag === "dt" ? word : MEANINGS[word];
    return element;
  })));
}

function showFields() {
  for (const element of form.querySelectorAll("[data-for]")) element.hidden = !isFor(element);
}

// A file of this name in the words of a question: not an option, nor a database.
const pathOf = (name) => (/^(-|db:)/.test(name) ? `./${name}` : name);

function wordsAsked() {
  if (kind() === "diff") {
    const json = form.elements.json.checked ? ["--json"] : [];
    return ["diff", pathOf(files.file.name), pathOf(files.new.name), ...json];
  }
  const words = [kind()];
  for (const field of form.querySelectorAll(".fields [name], [type=checkbox]")) {
    if (!isFor(field.closest("label"))) continue;
    if (field.type === "checkbox") {
      if (field.checked) words.push(`--${field.name}`);
    } else if (field.value !== "") {
      // (a value that begins with a hyphen would be read as an option)
      words.push(...(/^-./.test(field.value) ? [`--${field.name}=${field.value}`] : [`--${field.name}`, field.value]));
    }
  }
  return words;
}

const inShell = (word) => (/^[\w.,:=@%+/-]+$/.test(word) ? word : `'${word.replaceAll("'", "'\\''")}'`);

// The command line that repeats the answer.
function commandLine(words) {
  const line = `opcmds ${words.map(inShell).join(" ")}`;
  return kind() === "diff" ? line : `${line} < ${inShell(pathOf(files.file.name))}`;
}

async function read(id, file) {
  if (!file) return;
  // (one byte more than a policy file may have is enough for the program to say so)
  files[id] = { name: file.name, bytes: new Uint8Array(await file.slice(0, LIMIT + 1).arrayBuffer()) };
  byId(id === "file" ? "told" : "new_told").textContent = `${file.name}: ${file.size.toLocaleString("en")} bytes`;
}

// Asks for the file that is missing, if one is.
function isMissing() {
  const missing = ["file", ...(kind() === "diff" ? ["new"] : [])].find((id) => !files[id]);
  if (!missing) return false;
  byId(missing === "file" ? "told" : "new_told").textContent = "Choose a policy file first.";
  byId(missing).focus();
  return true;
}

// The page that `sheet` makes is saved and not shown.
function offerPage(text) {
  URL.revokeObjectURL(byId("save").href);
  byId("saved").hidden = text === "";
  if (text === "") return;
  byId("save").href = URL.createObjectURL(new Blob([text], { type: "text/html" }));
  byId("save").download = `${files.file.name}.html`;
}

async function answer(event) {
  event.preventDefault();
  if (isMissing()) return;
  const words = wordsAsked();
  byId("words").textContent = commandLine(words);
  let told;
  try {
    told = await ask(files.file.bytes, words, kind() === "diff" ? files.new.bytes : undefined);
  } catch (error) {
    told = { status: NO_MEMORY, output: "", errors: `The module stopped: ${error}\n` };
  }
  const isPage = words[0] === "sheet";
  show("output", isPage ? "" : told.output);
  show("errors", told.errors);
  showMeanings();
  offerPage(isPage ? told.output : "");
  byId("status").textContent = `Status ${told.status}: ${STATUS[words[0]][told.status]}`;
}

form.addEventListener("submit", answer);
form.addEventListener("change", showFields);
for (const id of ["file", "new"]) byId(id).addEventListener("change", () => read(id, byId(id).files[0]));
for (const [name, isOver] of [["dragover", true], ["dragleave", false], ["drop", false]]) {
  document.addEventListener(name, (event) => {
    event.preventDefault();
    byId("drop").classList.toggle("over", isOver);
    if (name !== "drop") return;
    // (two files are the old and the new policy)
    const [first, second] = event.dataTransfer.files;
    read("file", first);
    read("new", second);
  });
}
showFields();
