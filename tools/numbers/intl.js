// Answers rows by Intl.NumberFormat: `node intl.js < requests > answers`.
//
// A request is `NUMBER|TAG OPTIONS`, its options as tests/more_rows has them: `name=text` or `name#count`, with `;` between. An
// answer is the text, or `!` and the name of the error.
//
// Here is the one rule that isn't ECMA-402's: of money and percentages minimumFractionDigits counts only together with
// maximumFractionDigits (docs/reference/numerals.md). So Intl isn't told of it otherwise.
const lines = require("fs").readFileSync(0, "utf8").split("\n");
if (lines.at(-1) === "") lines.pop();

function optionsOf(words) {
  const options = {};
  for (const word of words.split(";").filter(Boolean)) {
    const [, name, kind, value] = /^(\w+)([=#])(.*)$/.exec(word);
    options[name] = kind === "#" ? Number(value) : value;
  }
  // Fluent has no other choice for "on", which is the usual one there and here
  options.useGrouping = options.useGrouping === "false" ? false : "auto";
  if (options.style !== undefined && options.style !== "decimal" && options.maximumFractionDigits === undefined) {
    delete options.minimumFractionDigits;
  }
  return options;
}

function formatOf(tag, words) {
  try {
    if (Intl.NumberFormat.supportedLocalesOf([tag]).length === 0) return "unknown locale";
    return new Intl.NumberFormat(tag, optionsOf(words));
  } catch (error) {
    return error.name;
  }
}

const answers = lines.map((line) => {
  const [number, asked] = line.split("|");
  const [tag, words = ""] = asked.split(" ");
  const format = formatOf(tag, words);
  return typeof format === "string" ? `!${format}` : format.format(number);
});
process.stdout.write(answers.join("\n") + "\n");
