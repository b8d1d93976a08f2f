# The WebAssembly module in Node, and in a page.
# shellcheck shell=sh

# Node's `fs` runs the cases, except those that ask for what Node does otherwise: it takes much memory, opens standard streams that
# are closed, and takes arguments as text.
answers_in_node() {
    mkdir module
    cp "$root/crates/bibkeep/out/static/bibkeep.wasm" "$root/release/bibkeep.mjs" module
    given there "#!/bin/sh\nexec node $PWD/module/bibkeep.mjs \"\$@\"\n"
    chmod 755 there
    lacks='run_in_16_MB run_in_400_MB keep_streams_closed take_any_bytes lock_files be_at_a_terminal' add_cases_of "$root/tests/program/run" there
}

# The files in memory of the page are as Node's: an edit and its undo leave the same bytes.
answers_over_files_in_memory() {
    cp "$root/examples/page/files.mjs" module
    given module/try.mjs 'import fs from "node:fs";
import { run } from "./bibkeep.mjs";
import { Files } from "./files.mjs";
const module = new WebAssembly.Module(fs.readFileSync(new URL("bibkeep.wasm", import.meta.url)));
const files = new Files();
files.named.set("a.bib", { bytes: new TextEncoder().encode("@misc{a, t = 1,}\\n"), number: 1n });
const text = () => new TextDecoder().decode(files.named.get("a.bib").bytes);
for (const args of [["edit", "a.bib", "set", "a", "t", "2"], ["log", "a.bib"], ["undo", "a.bib"], ["show", "a.bib", "b"]]) {
  files.printed = ["", "", ""];
  const status = run(module, args, files);
  console.log(status, files.printed[1] + files.printed[2] + text());
}
console.log([...files.named.keys()].join(" "));
'
    when_shell_runs 'node module/try.mjs'; ends_with 0; prints '0 applied 1\n@misc{a, t = 2,}\n\n0 done 1 1 1 set a t 2\n@misc{a, t = 2,}\n\n0 undone 1\n@misc{a, t = 1,}\n\n1 bibkeep: 11 NoSuchEntry\n@misc{a, t = 1,}\n\na.bib a.bib.bibkeep\n'; says_nothing
}

is_new_enough() { command -v node >/dev/null && node -e 'process.exitCode = Number(parseInt(process.versions.node) < 20)'; }

if is_linked wasm; then
    if is_new_enough; then
        answers_in_node
        answers_over_files_in_memory
    else
        left_out 'runs of the WebAssembly module: there is no Node 20 or newer'
    fi
fi
