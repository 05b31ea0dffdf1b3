"use strict";

// The extension over the real server, with `vscode.js` in place of the editor. EXTENSION is its folder, unpacked as it is
// installed; PYTHON runs the server's module, which PYTHONPATH has.

const assert = require("node:assert");
const fs = require("node:fs");
const Module = require("node:module");
const os = require("node:os");
const path = require("node:path");
const test = require("node:test");

const FOLDER = process.env.EXTENSION;
const PYTHON = process.env.PYTHON;
const fake = path.join(__dirname, "vscode.js");
const resolve = Module._resolveFilename;
Module._resolveFilename = (name, ...rest) => (name === "vscode" ? fake : resolve(name, ...rest));

const vscode = require("vscode");
const { activate, deactivate } = require(path.join(FOLDER, "extension.js"));
const { Connection } = require(path.join(FOLDER, "connection.js"));
const { state, events, watcher, Uri } = vscode;

const package_ = JSON.parse(fs.readFileSync(path.join(FOLDER, "package.json"), "utf8"));
const ENGLISH = "a = A { $name }\n    .t = T\nb = B\n";
const POLISH = "a = \u0104 \ud83d\udc4d { $nmae } { -t }\n    .t = \u0164\n-t = T\n";

async function until(condition) {
  for (let left = 3600; left; left -= 1) {
    const got = condition();
    if (got) return got;
    await new Promise((done) => setTimeout(done, 50));
  }
  throw new Error(`${condition} doesn't come true: ${state.output} ${JSON.stringify(state.messages)}`);
}

function documentOf(uri, text, languageId = "fluent") {
  return { uri, languageId, version: 1, text, getText() { return this.text; } };
}

const context = () => ({ subscriptions: [] });
let root, polish, opened;

/** Starts the extension in a folder with two languages, and opens the Polish file. */
async function begun(settings = {}) {
  root = fs.mkdtempSync(path.join(os.tmpdir(), "vscode "));
  for (const [name, text] of [["en-US", ENGLISH], ["pl", POLISH]]) {
    fs.mkdirSync(path.join(root, "l10n", name), { recursive: true });
    fs.writeFileSync(path.join(root, "l10n", name, "m.ftl"), text);
  }
  polish = documentOf(Uri.file(path.join(root, "l10n/pl/m.ftl")), POLISH);
  Object.assign(state, { settings: {
    "kozhvadi.server.command": [PYTHON, "-m", "kozhvadi.server"],
    "kozhvadi.reference": "l10n/en-US",
    "kozhvadi.locale": "",
    "kozhvadi.functions": [],
    "kozhvadi.notes": false,
    "kozhvadi.catalog": "language",
    ...settings,
  }, messages: [], edits: [], opened: [], output: "", folders: [{ uri: Uri.file(root), name: "it" }] });
  vscode.workspace.textDocuments = [polish];
  vscode.window.activeTextEditor = { document: polish };
  opened = context();
  await activate(opened);
}

test.afterEach(async () => {
  await deactivate();
  opened?.subscriptions.forEach((each) => each.dispose());
  if (root) fs.rmSync(root, { recursive: true });
  root = opened = null;
});

const of = (type) => state.providers[type].provider;
const place = (words, inside = 0) => {
  const before = polish.text.slice(0, polish.text.indexOf(words) + inside).split("\n");
  return { line: before.length - 1, character: before[before.length - 1].length };
};
/** Words of the Polish file are replaced, as if somebody typed it. */
function change(words, text) {
  const range = { start: place(words), end: place(words, words.length) };
  Object.assign(polish, { text: polish.text.replace(words, text), version: polish.version + 1 });
  events.onDidChangeTextDocument.fire({ document: polish, contentChanges: [{ range, text }] });
}
const codes = () => state.diagnostics.get(polish.uri.toString())?.map((each) => each.code.value);

test("findings, and what changes them", async () => {
  await begun();
  await until(() => codes()?.length === 2);
  assert.deepStrictEqual(codes(), ["unknown-variable", "missing-message"]);
  const [found] = state.diagnostics.get(polish.uri.toString());
  assert.deepStrictEqual([found.severity, found.source, found.range.start.character], [0, "kozhvadi", 11]);
  assert.match(found.code.target.toString(), /codes\.md#L\d+$/);
  assert.strictEqual(found.relatedInformation[0].message, "the message of the reference");
  change("$nmae", "$name");
  await until(() => codes()?.length === 1);
  fs.appendFileSync(path.join(root, "l10n/en-US/m.ftl"), "-t = T\n");
  fs.writeFileSync(path.join(root, "l10n/pl/n.ftl"), "b = x\n");
  watcher.onDidCreate.fire(Uri.file(path.join(root, "l10n/pl/n.ftl")));
  await until(() => codes()?.length === 0);
  state.settings["kozhvadi.reference"] = "none";
  events.onDidChangeConfiguration.fire({ affectsConfiguration: (name) => name === "kozhvadi" });
  await until(() => codes()?.[0] === "missing-reference");
  assert.match(state.messages[0].join(" "), /warning kozhvadi: the reference none isn't in/);
  events.onDidCloseTextDocument.fire(polish);
  await until(() => state.diagnostics.get(polish.uri.toString()).length === 0);
});

test("what the editor asks", async () => {
  await begun();
  const at = place("a = ");
  const hover = await of("Hover").provideHover(polish, at);
  assert.match(hover.contents.value, /A \u2068?Jane/);
  assert.strictEqual(hover.contents.supportHtml, false);
  const [definition] = await of("Definition").provideDefinition(polish, place("-t }", 1));
  assert.deepStrictEqual([definition.uri.toString(), definition.range.start.line], [polish.uri.toString(), 2]);
  const references = await of("Reference").provideReferences(polish, at, { includeDeclaration: true });
  assert.strictEqual(references.length, 2);
  assert.strictEqual((await of("DocumentHighlight").provideDocumentHighlights(polish, place("-t }", 1))).length, 2);
  const items = await of("CompletionItem").provideCompletionItems(polish, place("$nmae", 1));
  assert.ok(items.some((each) => each.label === "$name" && each.range && each.insertText === "$name"));
  const [symbol] = await of("DocumentSymbol").provideDocumentSymbols(polish);
  assert.deepStrictEqual([symbol.name, symbol.children[0].name], ["a", ".t"]);
  assert.ok((await of("WorkspaceSymbol").provideWorkspaceSymbols("b")).length);
  assert.deepStrictEqual((await of("FoldingRange").provideFoldingRanges(polish, {}))[0], new vscode.FoldingRange(0, 1, undefined));
  assert.ok((await of("SelectionRange").provideSelectionRanges(polish, [at]))[0].parent);
  const range = { start: { line: 0, character: 0 }, end: { line: 9, character: 0 } };
  const hints = await of("InlayHints").provideInlayHints(polish, range);
  assert.deepStrictEqual(hints.map((each) => each.label), ["A { $name }", "= T"]);
  assert.strictEqual((await of("CodeLens").provideCodeLenses(polish))[0].command.title, "1 reference");
  const { given } = state.providers.DocumentSemanticTokens;
  const tokens = await given[1].provideDocumentSemanticTokens(polish);
  assert.strictEqual(given[2].types[tokens.data[3]], "function");
  const actions = await of("CodeActions").provideCodeActions(polish, { start: place("$nmae"), end: place("$nmae") }, {});
  assert.deepStrictEqual([actions[0].title, actions[0].kind.value, actions[0].edit.steps[0].kind], ["Change to `$name`", "quickfix", "edit"]);
  const all = await of("CodeActions").provideCodeActions(polish, range, { only: { value: "source.fixAll" } });
  assert.ok(all.every((each) => each.kind.value.startsWith("source.fixAll")));
  assert.deepStrictEqual(await of("DocumentFormattingEdit").provideDocumentFormattingEdits(polish, {}), []);
  change("-t = T\n", "-t = T\nx   =   y\nz = { NUMBER(1) }\n");
  const [tidied] = await of("DocumentFormattingEdit").provideDocumentFormattingEdits(polish, {});
  assert.strictEqual(tidied.newText, "x = y\n");
  const selected = { start: place("x   ="), end: place("x   =") };
  const [part] = await of("DocumentRangeFormattingEdit").provideDocumentRangeFormattingEdits(polish, selected, {});
  assert.strictEqual(part.newText, "x = y");
  const help = await of("SignatureHelp").provideSignatureHelp(polish, place("NUMBER(", 7));
  assert.deepStrictEqual([help.signatures[0].parameters[help.activeParameter].label, help.activeSignature], ["a number", 0]);
  assert.strictEqual(await of("SignatureHelp").provideSignatureHelp(polish, at), null);
});

test("renaming names and files", async () => {
  await begun();
  const prepared = await of("Rename").prepareRename(polish, place("a = "));
  assert.strictEqual(prepared.placeholder, "a");
  await assert.rejects(of("Rename").prepareRename(polish, place("= ")), /no name/);
  const edit = await of("Rename").provideRenameEdits(polish, place("a = "), "zz");
  assert.strictEqual(edit.steps.length, 2);
  await assert.rejects(of("Rename").provideRenameEdits(polish, place("a = "), "1"), /a name begins/);
  const [oldUri, newUri] = ["m.ftl", "n.ftl"].map((name) => Uri.file(path.join(root, "l10n/en-US", name)));
  let waited;
  events.onWillRenameFiles.fire({ files: [{ oldUri, newUri }], waitUntil: (promise) => (waited = promise) });
  const [step] = (await waited).steps;
  assert.deepStrictEqual([step.kind, path.basename(step.to)], ["rename", "n.ftl"]);
});

test("files that are missing are created by a command", async () => {
  await begun();
  fs.writeFileSync(path.join(root, "l10n/en-US/new.ftl"), "new = N\n");
  watcher.onDidCreate.fire(Uri.file(path.join(root, "l10n/en-US/new.ftl")));
  await until(() => codes()?.includes("missing-file"));
  await state.commands["kozhvadi.createFiles"]();
  const steps = (await until(() => state.edits[0])).steps;
  assert.deepStrictEqual(steps.map((each) => [each.kind, path.basename(each.uri)]), [["create", "new.ftl"], ["edit", "new.ftl"]]);
});

test("documents that aren't its own", async () => {
  await begun();
  await until(() => codes()?.length);
  const git = documentOf(new Uri(polish.uri.toString().replace("file:", "git:")), "a = { -none }\n");
  const other = documentOf(Uri.file(path.join(root, "x.txt")), "a = { -none }\n", "plaintext");
  for (const each of [git, other]) events.onDidOpenTextDocument.fire(each);
  await of("WorkspaceSymbol").provideWorkspaceSymbols("");
  assert.deepStrictEqual([...state.diagnostics.keys()], [polish.uri.toString()]);
});

test("a server that isn't there", async () => {
  await begun({ "kozhvadi.server.command": ["/no/such/server"] });
  const [kind, words, button] = await until(() => state.messages[0]);
  assert.match(words, /There is no `\/no\/such\/server`\. Install the Python module/);
  assert.deepStrictEqual([kind, button], ["error", "Open the setting"]);
});

test("a server that ends is started again, but not for ever", async () => {
  await begun({ "kozhvadi.server.command": [PYTHON, "-c", "raise SystemExit('it is broken')"] });
  const [, words] = await until(() => state.messages[0]);
  assert.match(words, /doesn't go on: the server ended with status 1/);
  assert.strictEqual(state.output.split("it is broken\n").length - 1, 4);
  state.settings["kozhvadi.server.command"] = [PYTHON, "-m", "kozhvadi.server"];
  await state.commands["kozhvadi.restart"]();
  await until(() => codes()?.length === 2);
});

test("the playground", async () => {
  await begun({ "kozhvadi.playground.command": [PYTHON, "-m", "kozhvadi.playground"] });
  await state.commands["kozhvadi.playground"]();
  assert.match(state.opened[0], /^http:\/\/127\.0\.0\.1:\d+\/$/);
  const start = await (await fetch(`${state.opened[0]}start`)).json();
  assert.strictEqual(start.source, POLISH);
  state.settings["kozhvadi.playground.command"] = ["/no/such"];
  await state.commands["kozhvadi.playground"]();
  assert.match(state.messages.pop()[1], /There is no `\/no\/such`/);
});

test("messages in pieces, cancelled requests, and requests that it doesn't know", async () => {
  const { PassThrough } = require("node:stream");
  const [input, output] = [new PassThrough(), new PassThrough()];
  const connection = new Connection(input, output);
  const sent = [];
  output.on("data", (data) => sent.push(data.toString()));
  let cancel;
  const token = { onCancellationRequested: (listener) => ((cancel = listener), { dispose: () => {} }) };
  const asked = connection.request("x", {}, token);
  cancel();
  const framed = (message) => `Content-Length: ${Buffer.byteLength(JSON.stringify(message))}\r\n\r\n${JSON.stringify(message)}`;
  const text = framed({ id: 7, method: "no/such" }) + framed({ id: 1, error: { code: -32800, message: "\u017c" } });
  for (const byte of Buffer.from(text)) input.write(Buffer.from([byte]));
  assert.strictEqual(await asked, null);
  await until(() => sent.some((each) => each.includes("-32601")));
  assert.ok(sent.some((each) => each.includes("$/cancelRequest")));
  connection.end(new Error("gone"));
  await assert.rejects(connection.request("y"), /gone/);
});

test("the manifest", () => {
  const { contributes, main, engines } = package_;
  assert.match(package_.name, /^[a-z][a-z0-9-]*$/);
  assert.match(package_.version, /^\d+\.\d+\.\d+$/);
  assert.match(engines.vscode, /^\^\d+\.\d+\.\d+$/);
  for (const name of [main, contributes.languages[0].configuration, contributes.grammars[0].path]) {
    assert.ok(fs.existsSync(path.join(FOLDER, name)), name);
  }
  assert.strictEqual(contributes.grammars[0].language, contributes.languages[0].id);
  const grammar = JSON.parse(fs.readFileSync(path.join(FOLDER, contributes.grammars[0].path), "utf8"));
  assert.strictEqual(grammar.scopeName, contributes.grammars[0].scopeName);
  const configuration = JSON.parse(fs.readFileSync(path.join(FOLDER, contributes.languages[0].configuration), "utf8"));
  assert.match("-brand", new RegExp(`^(?:${configuration.wordPattern})$`));
  const source = fs.readFileSync(path.join(FOLDER, "extension.js"), "utf8");
  for (const { command, title } of contributes.commands) assert.ok(title && source.includes(`registerCommand("${command}"`), command);
  for (const { command } of contributes.menus.commandPalette) assert.ok(contributes.commands.some((each) => each.command === command));
  const types = { string: "string", boolean: "boolean", array: "object" };
  for (const [name, setting] of Object.entries(contributes.configuration.properties)) {
    assert.ok(name.startsWith("kozhvadi.") && setting.description);
    assert.strictEqual(typeof setting.default, types[setting.type]);
    if (setting.enum) assert.ok(setting.enum.includes(setting.default));
  }
  const [matcher] = contributes.problemMatchers;
  const told = new RegExp(matcher.pattern.regexp).exec("l10n/pl/a b.ftl:4:13: error: items: there is no term `-brand` [unknown-term]");
  const { file, line, column, severity, message } = matcher.pattern;
  assert.deepStrictEqual([file, line, column, severity, message].map((each) => told[each]),
    ["l10n/pl/a b.ftl", "4", "13", "error", "items: there is no term `-brand` [unknown-term]"]);
  assert.ok(!package_.dependencies && !package_.devDependencies);
});
