// What the library as WebAssembly answers to questions: a list of plain values each.

const digest = async (bytes) => {
  const sum = new Uint8Array(await crypto.subtle.digest("SHA-256", bytes));
  return Array.from(sum, (it) => it.toString(16).padStart(2, "0")).join("");
};

// A certificate that was answered before, with a byte changed, or cut.
function changed(certificate, { at, value, length }) {
  const bytes = certificate.slice(0, length ?? certificate.length);
  if (at !== undefined) bytes[at % bytes.length] = value;
  return bytes;
}

async function told(asked, { call, words, of, change }, certificates) {
  const given = of === undefined ? words : [words[0], changed(certificates[of], change), ...words.slice(1)];
  const answer = await asked[call](...given);
  switch (call) {
    case "deal": return [answer];
    case "best": case "solve":
      certificates.push(answer.certificate ?? new Uint8Array(0));
      return [answer.kind, answer.text, answer.moves ?? null, answer.floor ?? null, answer.list ?? null, answer.budget ?? null, await digest(certificates.at(-1))];
    case "check": return [answer.kind, answer.moves, answer.floor, answer.text];
    case "replay": return [answer.isWon, answer.boards];
    default: return [answer.losing ?? null, answer.kind, answer.moves, answer.floor, answer.text];
  }
}

/** The answers of a `Luffaknife` or a `Solver`, one after the other; a refusal is told by its name and its place. */
export async function answers(asked, questions) {
  const certificates = [], made = [];
  for (const question of questions) {
    try {
      made.push(await told(asked, question, certificates));
    } catch (error) {
      if (error.name !== "Refused") throw error;
      if (question.call === "best" || question.call === "solve") certificates.push(new Uint8Array(0));
      made.push(["refused", error.reason, error.place]);
    }
  }
  return made;
}
