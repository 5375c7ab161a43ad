// Tries a parser on events.json: node run.js MY_PARSER.js [WORD ..]
//
// MY_PARSER.js exports a function from chunks, which are buffers, to event lines. Each vector of
// the kind events is tried as it is, in one chunk, and byte by byte. A word is a level, a rule, a
// house rule, or strongest=LEVEL (docs/JUDGE.md): vectors that have it are left out. The status is
// 0 if all are right, 1 if not or if none is left, and 2 without MY_PARSER.js.
const fs = require("fs");
const path = require("path");
let parseChunks;

// The text of bytes in hex or, with a line feed as the end, of lines.
function expand(value, end = "") {
  if (Array.isArray(value)) return value.map((item) => expand(item, end)).join("");
  if (typeof value === "string") return value + end;
  return value.line ? expand(value.line) + end : (value.repeat + end).repeat(value.times);
}

function answer(chunks) {
  try {
    return parseChunks(chunks).map((line) => `${line}\n`).join("");
  } catch (error) {
    return String(error);
  }
}

// Whether a vector is none of those to try, or has one of the words.
function isLeftOut({ kind, level, strongest, rules, house, limit }, words) {
  if (kind !== "events" || limit !== 1024) return true;
  const own = [level, `strongest=${strongest}`, ...rules, ...house];
  return own.some((word) => words.includes(word));
}

// Returns whether a vector is right in each way, and prints the first in which it is wrong.
function tryVector({ id, level, rules, chunks, events }) {
  const cut = chunks.map((chunk) => Buffer.from(expand(chunk), "hex"));
  const stream = Buffer.concat(cut);
  const wanted = expand(events, "\n");
  const ways = [cut, [stream], [...stream].map((byte) => Buffer.from([byte]))];
  const wrongWay = ways.find((way) => answer(way) !== wanted);
  if (!wrongWay) return true;
  const given = wrongWay.map((chunk) => chunk.toString("hex")).join(" ").slice(0, 300);
  const texts = [answer(wrongWay), wanted];
  const [got, right] = texts.map((text) => JSON.stringify(text.slice(0, 300)));
  console.log(`${id}: ${given} gives ${got}, not ${right} (${level}: ${rules.join(", ")})`);
  return false;
}

function main([parser, ...words]) {
  if (!parser) {
    console.error("name a parser: node run.js MY_PARSER.js [WORD ..]");
    return 2;
  }
  parseChunks = require(path.resolve(parser));
  const file = JSON.parse(fs.readFileSync(path.join(__dirname, "events.json")));
  const tried = [...file.vectors, ...file.long].filter((vector) => !isLeftOut(vector, words));
  const wrong = tried.filter((vector) => !tryVector(vector)).length;
  console.log(`${wrong} of ${tried.length} wrong`);
  return wrong > 0 || tried.length === 0 ? 1 : 0;
}

process.exitCode = main(process.argv.slice(2));
