// Deals 941, looks for the best answer, has its certificate checked, plays the list and reviews it; then asks what can't be asked.
//   node lib/example.mjs 941        (Node 20 to 23: node --experimental-wasm-memory64 lib/example.mjs 941)
import { load } from "./luffaknife.mjs";

const number = Number(process.argv[2] ?? 941);
const luffaknife = await load(process.env.LUFFAKNIFE_WASM);

// What a call answers, or why it is refused.
const told = (call) => {
  try {
    return call();
  } catch (error) {
    return `refused: ${error.message}`;
  }
};

const answer = told(() => luffaknife.best(number, { certificate: true }));
if (typeof answer === "string") {
  console.log(answer);
  process.exit(3);
}
console.log(answer.text.trimEnd());
if (answer.certificate) {
  console.log("check:", luffaknife.check(number, answer.certificate).text.trimEnd());
  console.log(told(() => luffaknife.check(number, answer.certificate.slice(0, -1))));
}
if (answer.list) {
  const { isWon, boards } = luffaknife.replay(number, answer.list);
  console.log(`replay: ${boards.length} boards, ${isWon ? "won" : "not won"}`);
  console.log("review:", luffaknife.review(number, answer.text).text);
}
console.log(told(() => luffaknife.replay(number, "1a", { cells: 0 })));
console.log(told(() => luffaknife.best("KS KS\n")));
