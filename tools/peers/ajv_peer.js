// ajv_peer.js [SCHEMA INSTANCE REPEATS]: reads two files once, and validates the instance so often with ajv. Ends with 0 where each answer
// is that the instance is accepted, with 1 where each refuses it, with 3 where the answers differ, and with 4 where ajv is not there.
// Without files it prints the version.

const fs = require("fs");

let Ajv;
try {
    Ajv = require("ajv");
} catch (error) {
    process.exit(4);
}
if (process.argv.length === 2) {
    console.log(`${require("ajv/package.json").version}, node ${process.versions.node}`);
    process.exit(0);
}
const [schema, instance] = process.argv.slice(2, 4).map((path) => JSON.parse(fs.readFileSync(path, "utf-8")));
const repeats = Number(process.argv[4]);
const validate = new Ajv().compile(schema);
let accepted = 0;
for (let k = 0; k < repeats; k += 1) {
    accepted += validate(instance) ? 1 : 0;
}
process.exit(accepted === repeats ? 0 : accepted === 0 ? 1 : 3);
