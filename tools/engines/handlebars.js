// node handlebars.js LIBRARY SOURCE DATA PARTIALS COUNT TEXT: as compare-engines says.
const fs = require("fs");
const [library, source, data, partials, count, text] = process.argv.slice(2);
const handlebars = require(library);
for (const [name, partial] of Object.entries(JSON.parse(fs.readFileSync(partials, "utf8")))) {
  handlebars.registerPartial(name, partial);
}
const render = handlebars.compile(fs.readFileSync(source, "utf8"));
const given = JSON.parse(fs.readFileSync(data, "utf8"));
let least = Infinity;
let answer = "";
for (let run = 0; run < 2 * Number(count); run += 1) {
  const start = process.hrtime.bigint();
  answer = render(given);
  const taken = Number(process.hrtime.bigint() - start) / 1e6;
  if (run >= Number(count)) least = Math.min(least, taken);
}
fs.writeFileSync(text, answer);
console.log(least);
