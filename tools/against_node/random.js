// Random patterns of the whole grammar: with the flag u, and in two of five also what only the older grammar has (annex B.1.2).

const atoms = [
  "a", "a", "b", "b", "c", "ab", "0", "1", "-", "_", " ", "\u00e9", "\u{1F600}", "\\d", "\\D", "\\w", "\\W", "\\s", "\\S", ".", "\\.", "\\/", "\\cA",
  "\\t", "\\n", "\\0", "\\x61", "\\u0061", "\\u{61}", "\\u{1F600}", "\\uD83D\\uDE00", "\\uD83D", "\\uDE00", "\\p{L}", "\\P{Lu}", "\\p{Script=Greek}",
  "\\p{scx=Grek}", "\\p{Nd}", "\\p{ASCII}", "\\P{Any}", "&", "~", "#", "@", ",", "=", "<", "!", "\\$", "\\^", "\\*", "\\(", "\\[", "\\]", "\\{", "\\|", "\\\\",
];
const olderAtoms = [
  "\\-", "\\_", "\\a", "\\e", "\\c", "\\c1", "\\01", "\\1", "\\2", "\\8", "\\18", "\\377", "\\400", "\\x4", "\\u004", "\\x", "\\u", "]", "}", "{", "{1",
  "{,2}", "{a}", "\\ ", "\\\u00e9", "\\k", "\\k<a>", "\\:", "\\'", "\\<", "\\i", "\\08", "\\00", "\\12",
];
const edges = ["^", "$", "\\b", "\\B"];
const members = [
  "a", "b", "c", "z", "0", "9", "-", "-", "_", "\\d", "\\D", "\\w", "\\W", "\\s", "\\S", ".", "\\.", "\\/", "\\-", "\\]", "\\[", "[", "^", "&", "&", "~",
  "~", "\\b", "\\cA", "\\t", "\\x61", "\\u0061", "\\u{61}", "\\p{L}", "\\P{L}", "\\p{Lu}", "\u00e9", " ", "a-z", "0-9", "A-Z", "a-c", "b-\u00e9", "\\0-\\x20",
  "\\^", "$", "(", ")", "|", "{", "}", "*", "+", "?", "\u{1F600}", "\\u{1F600}", "\\uD83D\\uDE00",
];
const olderMembers = [
  "\\_", "\\a", "\\c", "\\c1", "\\c_", "\\1", "\\8", "\\12", "\\377", "\\400", "\\x4", "\\u004", "\\B", "\\ ", "\\&", "\\d-", "-\\d", "\\w-z", "a-\\d",
  "\\k", "\\x", "\\u", "\\e", "\\:",
];
const quantifiers = ["*", "+", "?", "{2}", "{1,2}", "{0,2}", "{0}", "{1,}", "{2,}", "{0,}", "{1}", "{0,1}", "{3}", "{1,3}"];
const nameStarts = ["n", "a", "$", "_", "\u00e9", "\\u0061", "\\u{62}", "\\uD835\\uDC9C", "\u{1D49C}"];
const letters = ["a", "a", "b", "b", "c", "0", "1", "-", " ", "_", "\u00e9", "A", "\n", "\u0001", "\\", "]", "{", "\u03b1", "\u{1F600}", "8", "\u0012"];

let seed = 12345;
function below(n) {
  seed = (Math.imul(seed, 1664525) + 1013904223) >>> 0;
  return (seed >>> 16) % n;
}
const one = (list) => list[below(list.length)];

// the pattern that is being made: whether it may have what the older grammar has, its groups so far and their names
let older = false;
let groups = 0;
let names = [];

function randomClass() {
  let text = "[" + (below(3) === 0 ? "^" : "");
  for (let left = below(5); left > 0; left--) text += older && below(4) === 0 ? one(olderMembers) : one(members);
  return text + "]";
}

function opening() {
  const kind = below(14);
  if (kind >= 8) return one(["(?=", "(?!", "(?<=", "(?<!"]);
  if (kind >= 6) return "(?:";
  groups++;
  if (kind < 4) return "(";
  names.push(one(nameStarts) + below(1000));
  return "(?<" + names[names.length - 1] + ">";
}

// a group, and whether it may be repeated
function randomGroup(depth) {
  const begin = opening();
  let text = begin + randomTerms(depth - 1);
  while (below(3) === 0) text += "|" + randomTerms(depth - 1);
  const look = /^\(\?<?[=!]$/.test(begin);
  return [text + ")", !look || (older && begin.length === 3)];
}

function reference() {
  if (names.length > 0 && below(3) === 0) return "\\k<" + one(names) + ">";
  return groups > 0 ? "\\" + (1 + below(groups)) : "a";
}

// a term, and whether it may be repeated
function randomTerm(depth) {
  const kind = below(20);
  if (kind < 2) return [one(edges), false];
  if (kind < 4) return [randomClass(), true];
  if (kind < 6) return [reference(), true];
  if (kind < 12 && depth > 0) return randomGroup(depth);
  return [older && below(3) === 0 ? one(olderAtoms) : one(atoms), true];
}

function randomTerms(depth) {
  let text = "";
  for (let left = below(4); left > 0; left--) {
    const [term, repeatable] = randomTerm(depth);
    text += term;
    if (repeatable && below(2) === 0) text += one(quantifiers) + (below(4) === 0 ? "?" : "");
  }
  return text;
}

function randomPattern() {
  older = below(5) < 2;
  groups = 0;
  names = [];
  return (below(4) === 0 ? "^" : "") + randomTerms(3) + randomTerms(3) + (below(4) === 0 ? "$" : "");
}

function randomSubject() {
  let text = "";
  for (let left = below(9); left > 0; left--) text += one(below(2) === 0 ? ["a", "b"] : letters);
  return text;
}

module.exports = { randomPattern, randomSubject };
