// Runs bibkeep in the browser over the file that was opened, which stays in memory.

import { run } from "../../release/bibkeep.mjs";
import { Files } from "./files.mjs";

const EXAMPLE = `% mail joe@x.org when a page moves
@string{cup = "Cambridge University Press"}
@Book(l94, author = {Lamport, Leslie}, publisher = cUp,
  year=1994 , month = mai)
@inproceedings{ld86, author = "Leslie Lamport and Dijkstra, E. W.",
  title = {On   Interprocess
           Communication}, crossref = {podc},}
@proceedings{podc, title = {Distributed Computing}, year = 1986}
`;

const element = (id) => document.getElementById(id);
const module = await WebAssembly.compileStreaming(fetch("../../release/bibkeep.wasm"));
const files = new Files();
let name = "refs.bib";

// What the program prints for these arguments, what it says, and its status.
function bibkeep(...args) {
  files.printed = ["", "", ""];
  const status = run(module, args, files);
  return { status, printed: files.printed[1], said: files.printed[2] };
}

function lines(text) {
  return text.split("\n").filter((line) => line !== "");
}

function fill(list, tag, texts) {
  list.replaceChildren(...texts.map((text) => Object.assign(document.createElement(tag), { textContent: text })));
}

function row({ type, key, parent, fields }) {
  const cells = [key, type, fields.author ?? fields.editor ?? "", fields.title ?? "", fields.year ?? "", parent ?? ""];
  const it = document.createElement("tr");
  fill(it, "td", cells);
  it.addEventListener("click", () => { element("key").value = key; });
  return it;
}

function show() {
  const { bytes } = files.named.get(name);
  const checked = bibkeep("check", name);
  const findings = bibkeep("lint", name);
  element("checked").textContent = checked.printed || checked.said;
  fill(element("findings"), "li", lines(findings.printed + findings.said));
  const records = lines(bibkeep("json", name, "*").printed).map((line) => JSON.parse(line));
  element("records").replaceChildren(...records.map(row));
  fill(element("keys"), "option", records.map(({ key }) => key));
  element("file").textContent = new TextDecoder().decode(bytes);
  URL.revokeObjectURL(element("save").href);
  element("save").href = URL.createObjectURL(new Blob([bytes], { type: "application/x-bibtex" }));
  element("save").download = name;
  element("opened").hidden = false;
}

function open(path, bytes) {
  files.named.clear();
  name = path;
  files.named.set(name, { bytes, number: 1n });
  element("answer").textContent = "";
  show();
}

function edit(...args) {
  const { printed, said } = bibkeep(...args);
  element("answer").textContent = printed + said;
  show();
}

element("choose").addEventListener("change", async ({ target }) => {
  const [file] = target.files;
  if (file) open(file.name, new Uint8Array(await file.arrayBuffer()));
});
element("example").addEventListener("click", () => open("refs.bib", new TextEncoder().encode(EXAMPLE)));
element("edit").addEventListener("submit", (event) => {
  event.preventDefault();
  edit("edit", name, "set", element("key").value, element("field").value, element("value").value);
});
element("drop").addEventListener("click", () => edit("edit", name, "drop", element("key").value, element("field").value));
element("undo").addEventListener("click", () => edit("undo", name));
element("redo").addEventListener("click", () => edit("redo", name));
element("version").textContent = bibkeep("--version").printed;
