"use strict";

// As much of the interface of VS Code as the extension uses, for tests by node. `state` has what was registered and shown.

const { pathToFileURL, fileURLToPath } = require("node:url");

const state = { providers: {}, commands: {}, settings: {}, diagnostics: new Map(), messages: [], edits: [], opened: [], folders: [], output: "" };

class Emitter {
  constructor() {
    this.listeners = new Set();
    this.event = (listener) => {
      this.listeners.add(listener);
      return { dispose: () => this.listeners.delete(listener) };
    };
  }

  fire(value) {
    for (const each of this.listeners) each(value);
  }
}

class Uri {
  constructor(text) {
    this.text = text;
    this.scheme = text.slice(0, text.indexOf(":"));
    this.fsPath = this.scheme === "file" ? fileURLToPath(text) : text;
  }

  static parse(text) {
    return new Uri(text);
  }

  static file(path) {
    return new Uri(pathToFileURL(path).href);
  }

  toString() {
    return this.text;
  }
}

const made = (...names) =>
  class {
    constructor(...values) {
      names.forEach((name, index) => (this[name] = values[index]));
    }
  };

class WorkspaceEdit {
  constructor() {
    this.steps = [];
  }

  set(uri, edits) {
    this.steps.push({ kind: "edit", uri: uri.toString(), edits });
  }

  createFile(uri, options) {
    this.steps.push({ kind: "create", uri: uri.toString(), options });
  }

  renameFile(from, to, options) {
    this.steps.push({ kind: "rename", from: from.toString(), to: to.toString(), options });
  }
}

const kind = (value) => ({ value, append: (part) => kind([value, part].filter(Boolean).join(".")) });
const events = Object.fromEntries(
  ["onDidOpenTextDocument", "onDidChangeTextDocument", "onDidCloseTextDocument", "onDidSaveTextDocument",
    "onDidChangeWorkspaceFolders", "onDidChangeConfiguration", "onWillRenameFiles"].map((name) => [name, new Emitter()]),
);
const watcher = { onDidCreate: new Emitter(), onDidChange: new Emitter(), onDidDelete: new Emitter() };

const languages = new Proxy({
  match: (selector, document) => Number(selector.some((each) => each.language === document.languageId && each.scheme === document.uri.scheme)),
  createDiagnosticCollection: () => ({
    set: (uri, found) => state.diagnostics.set(uri.toString(), found),
    dispose: () => state.diagnostics.clear(),
  }),
}, {
  get: (target, name) => target[name] ?? ((...given) => {
    const [, type] = /^register(\w+)Provider$/.exec(name);
    const provider = given.find((each) => Object.values(each).some((value) => typeof value === "function"));
    state.providers[type] = { provider, given };
    return { dispose: () => delete state.providers[type] };
  }),
});

module.exports = {
  state, events, watcher, Uri, WorkspaceEdit, languages,
  version: "1.82.0",
  Position: made("line", "character"),
  Range: made("start", "end"),
  Location: made("uri", "range"),
  TextEdit: made("range", "newText"),
  Diagnostic: made("range", "message", "severity"),
  DiagnosticRelatedInformation: made("location", "message"),
  MarkdownString: made("value"),
  Hover: made("contents", "range"),
  CompletionItem: made("label", "kind"),
  SnippetString: made("value"),
  DocumentSymbol: made("name", "detail", "kind", "range", "selectionRange"),
  SymbolInformation: made("name", "kind", "container", "location"),
  CodeAction: made("title", "kind"),
  CodeActionKind: { Empty: kind("") },
  SelectionRange: made("range", "parent"),
  FoldingRange: made("start", "end", "kind"),
  FoldingRangeKind: { Comment: "comment", Region: "region" },
  InlayHint: made("position", "label"),
  CodeLens: made("range", "command"),
  DocumentHighlight: made("range", "kind"),
  SemanticTokens: made("data"),
  SignatureHelp: made(),
  SignatureInformation: made("label"),
  ParameterInformation: made("label"),
  SemanticTokensLegend: made("types", "modifiers"),
  env: { openExternal: async (uri) => state.opened.push(uri.toString()) },
  commands: {
    registerCommand: (name, run) => {
      state.commands[name] = run;
      return { dispose: () => delete state.commands[name] };
    },
    executeCommand: async (...given) => state.opened.push(given),
  },
  window: {
    activeTextEditor: undefined,
    createOutputChannel: () => ({ append: (text) => (state.output += text), appendLine: (text) => (state.output += `${text}\n`), dispose: () => {} }),
    showErrorMessage: async (...given) => void state.messages.push(["error", ...given]),
    showWarningMessage: async (...given) => void state.messages.push(["warning", ...given]),
  },
  workspace: {
    ...Object.fromEntries(Object.entries(events).map(([name, emitter]) => [name, emitter.event])),
    textDocuments: [],
    get workspaceFolders() {
      return state.folders;
    },
    getConfiguration: (section) => ({ get: (name) => state.settings[`${section}.${name}`] }),
    createFileSystemWatcher: () => ({
      ...Object.fromEntries(Object.entries(watcher).map(([name, emitter]) => [name, emitter.event])),
      dispose: () => {},
    }),
    applyEdit: async (edit) => {
      state.edits.push(edit);
      return true;
    },
  },
};
