"use strict";

// What VS Code asks, as requests of the protocol.

const vscode = require("vscode");
const convert = require("./convert");

/** The documents of the server: files, and what isn't saved yet. Other versions of files aren't among them. */
const SELECTOR = [{ language: "fluent", scheme: "file" }, { language: "fluent", scheme: "untitled" }];

const CAPABILITIES = {
  general: { positionEncodings: ["utf-16"] },
  textDocument: {
    publishDiagnostics: { relatedInformation: true, codeDescriptionSupport: true },
    hover: { contentFormat: ["markdown", "plaintext"] },
    completion: { completionItem: { snippetSupport: true } },
    documentSymbol: { hierarchicalDocumentSymbolSupport: true },
  },
  workspace: {
    applyEdit: true,
    workspaceFolders: true,
    workspaceEdit: { documentChanges: true, resourceOperations: ["create", "rename"] },
  },
};

const named = (document) => ({ textDocument: { uri: document.uri.toString() } });
const listed = (make) => (found) => (found ?? []).map(make);

/** Registers each feature. `ask` sends a request, and what follows in it is what makes the answer VS Code's. */
function register(ask, can) {
  const { languages } = vscode;
  const at = (method, make) => (document, position, token) =>
    ask(method, { ...named(document), position: convert.toPosition(position) }, token).then(make);
  const of = (method, make) => (document, ...rest) => ask(method, named(document), rest[rest.length - 1]).then(make);
  const legend = can.semanticTokensProvider.legend;
  const tokens = (found) => new vscode.SemanticTokens(Uint32Array.from(found?.data ?? []));
  return [
    languages.registerHoverProvider(SELECTOR, { provideHover: at("textDocument/hover", convert.hover) }),
    languages.registerDefinitionProvider(SELECTOR, { provideDefinition: at("textDocument/definition", listed(convert.location)) }),
    languages.registerDocumentHighlightProvider(SELECTOR, {
      provideDocumentHighlights: at("textDocument/documentHighlight", listed(convert.highlight)),
    }),
    languages.registerReferenceProvider(SELECTOR, {
      provideReferences: (document, position, context, token) =>
        ask("textDocument/references", { ...named(document), position: convert.toPosition(position), context }, token)
          .then(listed(convert.location)),
    }),
    languages.registerCompletionItemProvider(SELECTOR, {
      provideCompletionItems: (document, position, token) =>
        ask("textDocument/completion", { ...named(document), position: convert.toPosition(position) }, token)
          .then(listed(convert.completion)),
    }, ...can.completionProvider.triggerCharacters),
    languages.registerDocumentSymbolProvider(SELECTOR, { provideDocumentSymbols: of("textDocument/documentSymbol", listed(convert.symbol)) }),
    languages.registerWorkspaceSymbolProvider({
      provideWorkspaceSymbols: (query, token) => ask("workspace/symbol", { query }, token).then(listed(convert.symbolOfWorkspace)),
    }),
    languages.registerDocumentFormattingEditProvider(SELECTOR, {
      provideDocumentFormattingEdits: (document, options, token) =>
        ask("textDocument/formatting", { ...named(document), options }, token).then(listed(convert.textEdit)),
    }),
    languages.registerDocumentRangeFormattingEditProvider(SELECTOR, {
      provideDocumentRangeFormattingEdits: (document, range, options, token) => {
        const asked = { ...named(document), range: convert.toRange(range), options };
        return ask("textDocument/rangeFormatting", asked, token).then(listed(convert.textEdit));
      },
    }),
    languages.registerSignatureHelpProvider(SELECTOR, {
      provideSignatureHelp: (document, position, token) =>
        ask("textDocument/signatureHelp", { ...named(document), position: convert.toPosition(position) }, token)
          .then(convert.signatures),
    }, can.signatureHelpProvider),
    languages.registerFoldingRangeProvider(SELECTOR, { provideFoldingRanges: of("textDocument/foldingRange", listed(convert.fold)) }),
    languages.registerCodeLensProvider(SELECTOR, { provideCodeLenses: of("textDocument/codeLens", listed(convert.lens)) }),
    languages.registerSelectionRangeProvider(SELECTOR, {
      provideSelectionRanges: (document, positions, token) =>
        ask("textDocument/selectionRange", { ...named(document), positions: positions.map(convert.toPosition) }, token)
          .then(listed(convert.selection)),
    }),
    languages.registerInlayHintsProvider(SELECTOR, {
      provideInlayHints: (document, range, token) =>
        ask("textDocument/inlayHint", { ...named(document), range: convert.toRange(range) }, token).then(listed(convert.hint)),
    }),
    languages.registerDocumentSemanticTokensProvider(SELECTOR, {
      provideDocumentSemanticTokens: of("textDocument/semanticTokens/full", tokens),
    }, new vscode.SemanticTokensLegend(legend.tokenTypes, legend.tokenModifiers)),
    languages.registerRenameProvider(SELECTOR, renaming(ask)),
    languages.registerCodeActionsProvider(SELECTOR, {
      provideCodeActions: (document, range, context, token) => {
        const only = context.only ? [context.only.value] : undefined;
        const asked = { ...named(document), range: convert.toRange(range), context: { diagnostics: [], only } };
        return ask("textDocument/codeAction", asked, token).then(listed(convert.action));
      },
    }, { providedCodeActionKinds: can.codeActionProvider.codeActionKinds.map((kind) => vscode.CodeActionKind.Empty.append(kind)) }),
  ];
}

function renaming(ask) {
  const asked = (document, position) => ({ ...named(document), position: convert.toPosition(position) });
  return {
    prepareRename: async (document, position, token) => {
      const found = await ask("textDocument/prepareRename", asked(document, position), token);
      if (!found) throw new Error("There is no name here.");
      return { range: convert.range(found.range), placeholder: found.placeholder };
    },
    provideRenameEdits: async (document, position, newName, token) => {
      const found = await ask("textDocument/rename", { ...asked(document, position), newName }, token);
      return found && convert.workspaceEdit(found);
    },
  };
}

module.exports = { CAPABILITIES, SELECTOR, register, named };
