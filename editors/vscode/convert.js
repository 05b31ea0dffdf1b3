"use strict";

// Values of the protocol as those of VS Code, and the other way round.

const vscode = require("vscode");

const toPosition = (position) => ({ line: position.line, character: position.character });
const toRange = (range) => ({ start: toPosition(range.start), end: toPosition(range.end) });

const position = (given) => new vscode.Position(given.line, given.character);
const range = (given) => new vscode.Range(position(given.start), position(given.end));
const location = (given) => new vscode.Location(vscode.Uri.parse(given.uri), range(given.range));
const textEdit = (given) => new vscode.TextEdit(range(given.range), given.newText);

/** The severities of the protocol begin with 1. */
function diagnostic(given) {
  const made = new vscode.Diagnostic(range(given.range), given.message, (given.severity ?? 1) - 1);
  const link = given.codeDescription?.href;
  made.code = link ? { value: given.code, target: vscode.Uri.parse(link) } : given.code;
  made.source = given.source;
  made.tags = given.tags;
  made.relatedInformation = given.relatedInformation?.map(
    (each) => new vscode.DiagnosticRelatedInformation(location(each.location), each.message),
  );
  return made;
}

/** An edit of files, which may also be created or renamed. */
function workspaceEdit(given) {
  const made = new vscode.WorkspaceEdit();
  for (const [uri, edits] of Object.entries(given.changes ?? {})) made.set(vscode.Uri.parse(uri), edits.map(textEdit));
  for (const change of given.documentChanges ?? []) {
    if (change.kind === "create") made.createFile(vscode.Uri.parse(change.uri), change.options);
    else if (change.kind === "rename") made.renameFile(vscode.Uri.parse(change.oldUri), vscode.Uri.parse(change.newUri), change.options);
    else made.set(vscode.Uri.parse(change.textDocument.uri), change.edits.map(textEdit));
  }
  return made;
}

function markdown(given) {
  const made = new vscode.MarkdownString(given.value);
  made.isTrusted = false;
  made.supportHtml = false;
  return made;
}

const hover = (given) => given && new vscode.Hover(markdown(given.contents), given.range && range(given.range));

/** Kinds of the protocol begin with 1, and those of VS Code with 0. */
function completion(given) {
  const made = new vscode.CompletionItem(given.label, (given.kind ?? 1) - 1);
  Object.assign(made, { detail: given.detail, sortText: given.sortText, filterText: given.filterText });
  made.insertText = given.insertTextFormat === 2 ? new vscode.SnippetString(given.textEdit.newText) : given.textEdit.newText;
  made.range = range(given.textEdit.range);
  return made;
}

function symbol(given) {
  const made = new vscode.DocumentSymbol(given.name, given.detail ?? "", given.kind - 1, range(given.range), range(given.selectionRange));
  made.children = (given.children ?? []).map(symbol);
  return made;
}

const symbolOfWorkspace = (given) => new vscode.SymbolInformation(given.name, given.kind - 1, "", location(given.location));

function action(given) {
  const made = new vscode.CodeAction(given.title, vscode.CodeActionKind.Empty.append(given.kind));
  made.edit = workspaceEdit(given.edit);
  made.isPreferred = given.isPreferred;
  made.diagnostics = given.diagnostics?.map(diagnostic);
  return made;
}

function selection(given) {
  return new vscode.SelectionRange(range(given.range), given.parent && selection(given.parent));
}

function fold(given) {
  const kind = { comment: vscode.FoldingRangeKind.Comment, region: vscode.FoldingRangeKind.Region }[given.kind];
  return new vscode.FoldingRange(given.startLine, given.endLine, kind);
}

function hint(given) {
  const made = new vscode.InlayHint(position(given.position), given.label);
  Object.assign(made, { tooltip: given.tooltip, paddingLeft: given.paddingLeft });
  return made;
}

/** What a call takes, and which part of it is being typed. */
function signatures(given) {
  if (!given) return null;
  const made = new vscode.SignatureHelp();
  made.signatures = given.signatures.map((each) => {
    const signature = new vscode.SignatureInformation(each.label);
    signature.parameters = each.parameters.map(({ label }) => new vscode.ParameterInformation(label));
    return signature;
  });
  return Object.assign(made, { activeSignature: given.activeSignature, activeParameter: given.activeParameter });
}

const lens = (given) => new vscode.CodeLens(range(given.range), { title: given.command.title, command: given.command.command });
const highlight = (given) => new vscode.DocumentHighlight(range(given.range), given.kind - 1);

module.exports = {
  toPosition, toRange, range, location, textEdit, diagnostic, workspaceEdit, hover, completion, symbol,
  symbolOfWorkspace, action, selection, fold, hint, lens, highlight, signatures,
};
