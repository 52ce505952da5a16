// The documents to pick: the name of each, and its code.

"use strict";

const DOCUMENTS = {
    "A call": `// A group is on one line where it fits. If not, its
// lines are broken, and each group in it is looked at
// for itself.
const call = (name, args) => group([
  name, "(",
  indent([softline, join([",", line], args)]),
  softline, ")",
]);

const scale = call("scale", ["width", "2"]);
return call("draw", ["picture", scale, "canvas"]);
`,
    "A list that is filled": `// fill puts as many words on a line as fit, and
// alignHere keeps the lines below the column where it
// starts.
const filled = (text) => alignHere(fill(
  text.split(" ").flatMap((it, at) => (at ? [line, it] : [it])),
));

return join(hardline, [
  ["width:  ", filled("how many columns a line may have")],
  ["indent: ", filled("by how many columns lines move")],
]);
`,
    "An if-else chain": `// One group: all branches are on one line, or none is.
const block = (body) => ["{", indent([line, body]), line, "}"];

return group([
  "if (a < b) ", block("less();"),
  " else if (a > b) ", block("more();"),
  " else ", block("same();"),
]);
`,
    "Comments at the ends of lines": `// A line suffix waits for the end of its line, and
// takes no room.
const field = (name, value, comment = nil) =>
  [name, " = ", value, comment];
const after = (text) => lineSuffix("  // " + text);

const fields = [
  field("width", "80", after("columns")),
  field("fill", "false"),
  field("limit", "0", after("no limit")),
];
const list = join([",", line], fields);
return group(["{", indent([line, list]), line, "}"]);
`,
    "A union and its fallback": `// The first document of a partial union is taken if its
// first line fits, else the second. union looks at all
// of its lines.
const lines = (doc) => [nest(2, [hardline, doc]), hardline];
const body = ["(key) => {", lines("return table[key];"), "}"];
const args = ["keys", "options", body];

const hugged = ["each(", join(", ", args), ")"];
const broken = ["each(", lines(join([",", hardline], args)), ")"];
return partialUnion(hugged, broken);
`,
};
