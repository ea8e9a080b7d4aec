// Answers command lines as the page does: node check/playground.mjs PAGE.html CASES.json. It prints a list of answers, one for each case.
import { readFileSync } from "node:fs";
import { gunzipSync } from "node:zlib";

const [page, cases] = process.argv.slice(2).map((it) => readFileSync(it, "utf8"));
const part = (id) => page.split(`<script id="${id}" type="text/plain">`)[1].split("</script>")[0];
const module = new WebAssembly.Module(gunzipSync(Buffer.from(part("module"), "base64")));
const answerOf = new Function(`${part("answering").split("// In a Worker")[0]}; return answerOf;`)();
const answers = JSON.parse(cases).map(({ words, texts }) => {
  const said = answerOf(module, words, texts);
  return { ...said, files: Object.fromEntries(said.files) };
});
process.stdout.write(JSON.stringify(answers));
