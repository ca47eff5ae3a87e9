// Runs the scripts of a page that need no browser: dump.mjs PAGE.html. Each line that comes is a function and its arguments, as JSON; what
// the function gives goes back as a line, or {"fault": its message}.
import crypto from "crypto";
import fs from "fs";
import readline from "readline";
import vm from "vm";

const html = fs.readFileSync(process.argv[2], "utf8");
const textAfter = (start) => html.slice(html.indexOf(start) + start.length).split("</script>", 1)[0];
const texts = { data: textAfter('id="data">'), linker: textAfter('id="linker">') };
const scripts = [...html.matchAll(/<script>\n([^]*?)<\/script>/g)].map(([, text]) => text.replace(/\nbegin\(\);\n/, ""));
const document = { getElementById: (id) => ({ textContent: texts[id] }) };
const md5 = (text) => crypto.createHash("md5").update(text, "latin1").digest("hex");
const context = vm.createContext({ document, md5, atob, Blob, Response, DecompressionStream, WebAssembly, TextDecoder, TextEncoder });
for (const script of scripts) vm.runInContext(script, context);
await vm.runInContext("beginLinker()", context);
for await (const line of readline.createInterface({ input: process.stdin })) {
    const [script, ...words] = JSON.parse(line);
    let answer;
    try {
        answer = await vm.runInContext(script, context)(...words);
    } catch (fault) {
        answer = { fault: fault.message };
    }
    process.stdout.write(`${JSON.stringify(answer ?? null)}\n`);
}
