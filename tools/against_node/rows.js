// rows.js COUNT ROWS ANSWERS: writes rows to the file ROWS, each a pattern and its subjects, of the patterns in written.js and COUNT random ones;
// and to ANSWERS what node's own engine says: `-` where it refuses the pattern, else a digit for each subject after the grammar: `u` where it reads the
// pattern with the flag u, `o` where only without it. Then it goes by halves of characters past U+FFFF, and such a subject has `.` in the place of a digit.
const fs = require("fs");
const { subjects, patterns } = require("./written.js");
const { randomPattern, randomSubject } = require("./random.js");
const [count, rowsFile, answersFile] = process.argv.slice(2);

const SUBJECTS = 60;

function row(pattern) {
  const own = [];
  while (own.length < SUBJECTS / 2) own.push(randomSubject());
  return [pattern, ...subjects.slice(0, SUBJECTS / 2), ...own];
}

// the pattern that begins at a place which is told, with the flag u or else without it
function read(pattern) {
  for (const [grammar, flags] of [["u", "uy"], ["o", "y"]]) {
    try {
      return [grammar, new RegExp(pattern, flags)];
    } catch (refused) {}
  }
  return ["-", null];
}

// whether there is a match that begins at a character, and not between its halves
function found(compiled, subject) {
  let place = 0;
  for (const character of subject) {
    compiled.lastIndex = place;
    if (compiled.test(subject)) return true;
    place += character.length;
  }
  compiled.lastIndex = place;
  return compiled.test(subject);
}

const hasHalves = (text) => /[\ud800-\udfff]/.test(text);

function answer([pattern, ...asked]) {
  const [grammar, compiled] = read(pattern);
  const digit = (subject) => {
    if (grammar === "o" && hasHalves(pattern + subject)) return ".";
    return found(compiled, subject) ? "1" : "0";
  };
  return grammar === "-" ? "-" : grammar + asked.map(digit).join("");
}

const rows = patterns.map((pattern) => [pattern, ...subjects]);
for (let left = +count; left > 0; left--) rows.push(row(randomPattern()));
fs.writeFileSync(rowsFile, rows.map((one) => JSON.stringify(one) + "\n").join(""));
fs.writeFileSync(answersFile, rows.map((one) => answer(one) + "\n").join(""));
