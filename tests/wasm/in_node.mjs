// Answers questions in Node: a file of JSON to standard output; of deal 617 within 500,000 how much memory it takes, without one.
//   node --experimental-wasm-memory64 tests/wasm/in_node.mjs WASM [QUESTIONS]
import { readFileSync, writeFileSync } from "node:fs";
import { load } from "../../lib/luffaknife.mjs";
import { answers } from "./answers.mjs";

const [wasm, questions] = process.argv.slice(2);
const luffaknife = await load(readFileSync(wasm));
if (questions) {
  writeFileSync(1, JSON.stringify(await answers(luffaknife, JSON.parse(readFileSync(questions, "utf8")))));
} else {
  const before = luffaknife.size;
  luffaknife.best(617, { budget: 500000 });
  console.log(luffaknife.size - before);
}
