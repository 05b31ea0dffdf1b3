"use strict";

// Starts the language server, tells it of documents and settings, and shows what it finds.

const { spawn } = require("node:child_process");
const vscode = require("vscode");
const { Connection } = require("./connection");
const convert = require("./convert");
const { CAPABILITIES, SELECTOR, named, register } = require("./features");

const SETTINGS = ["reference", "locale", "functions", "notes", "catalog"];
const CREATE_FILES = "kozhvadi.createMissingFiles";
const MOST_STARTS = 4; // A server that ends isn't started again more often, until it is asked for.

let running = null;
let starts = 0;

/** The settings that are set. What is empty is as if it were missing. */
function settings() {
  const given = vscode.workspace.getConfiguration("kozhvadi");
  const found = SETTINGS.map((name) => [name, given.get(name)]);
  return Object.fromEntries(found.filter(([, value]) => value !== "" && value !== undefined && value !== null));
}

const isOurs = (document) => vscode.languages.match(SELECTOR, document) > 0;
const folder = (each) => ({ uri: each.uri.toString(), name: each.name });

/** A running server, and what was registered for it. */
class Server {
  constructor([command, ...words], output) {
    const cwd = vscode.workspace.workspaceFolders?.[0]?.uri.fsPath;
    this.process = spawn(command, words, { cwd });
    this.connection = new Connection(this.process.stdout, this.process.stdin);
    this.found = vscode.languages.createDiagnosticCollection("kozhvadi");
    this.registered = [this.found];
    this.process.stderr.on("data", (data) => output.append(data.toString()));
    this.ended = new Promise((resolve) => {
      this.process.on("error", (error) => resolve(error));
      this.process.on("exit", (code) => resolve(new Error(`the server ended with status ${code}`)));
    });
    this.ended.then((error) => this.connection.end(error));
  }

  async begin() {
    this.listen();
    const folders = vscode.workspace.workspaceFolders ?? null;
    const { capabilities } = await this.connection.request("initialize", {
      processId: process.pid,
      clientInfo: { name: "Visual Studio Code", version: vscode.version },
      rootUri: folders?.[0]?.uri.toString() ?? null,
      workspaceFolders: folders?.map(folder) ?? null,
      capabilities: CAPABILITIES,
      initializationOptions: settings(),
    });
    this.connection.notify("initialized", {});
    const ask = (method, params, token) => this.connection.request(method, params, token);
    this.registered.push(...register(ask, capabilities), ...this.follow());
    vscode.workspace.textDocuments.forEach((document) => this.open(document));
  }

  /** What the server sends by itself. */
  listen() {
    this.connection
      .on("textDocument/publishDiagnostics", ({ uri, diagnostics }) =>
        this.found.set(vscode.Uri.parse(uri), diagnostics.map(convert.diagnostic)))
      .on("window/showMessage", ({ message }) => void vscode.window.showWarningMessage(message))
      .on("workspace/applyEdit", async ({ edit }) => ({
        applied: await vscode.workspace.applyEdit(convert.workspaceEdit(edit)),
      }))
      .on("client/registerCapability", () => null);
  }

  /** Tells the server of documents, files, folders and settings. */
  follow() {
    const { workspace } = vscode;
    const watcher = workspace.createFileSystemWatcher("**/{*.ftl,l10n.toml}");
    const changed = (type) => (uri) =>
      this.connection.notify("workspace/didChangeWatchedFiles", { changes: [{ uri: uri.toString(), type }] });
    return [
      watcher,
      watcher.onDidCreate(changed(1)),
      watcher.onDidChange(changed(2)),
      watcher.onDidDelete(changed(3)),
      workspace.onDidOpenTextDocument((document) => this.open(document)),
      workspace.onDidChangeTextDocument(({ document, contentChanges }) => this.change(document, contentChanges)),
      workspace.onDidCloseTextDocument((document) => this.tell("textDocument/didClose", document)),
      workspace.onDidSaveTextDocument((document) => this.tell("textDocument/didSave", document)),
      workspace.onDidChangeWorkspaceFolders(({ added, removed }) => {
        const event = { added: added.map(folder), removed: removed.map(folder) };
        this.connection.notify("workspace/didChangeWorkspaceFolders", { event });
      }),
      workspace.onDidChangeConfiguration((event) => {
        if (event.affectsConfiguration("kozhvadi")) {
          this.connection.notify("workspace/didChangeConfiguration", { settings: { kozhvadi: settings() } });
        }
      }),
      workspace.onWillRenameFiles((event) => event.waitUntil(this.moves(event.files))),
    ];
  }

  async moves(files) {
    const asked = files.map(({ oldUri, newUri }) => ({ oldUri: oldUri.toString(), newUri: newUri.toString() }));
    const found = await this.connection.request("workspace/willRenameFiles", { files: asked }).catch(() => null);
    return found ? convert.workspaceEdit(found) : undefined;
  }

  open(document) {
    if (!isOurs(document)) return;
    const [uri, text] = [document.uri.toString(), document.getText()];
    const opened = { uri, languageId: "fluent", version: document.version, text };
    this.connection.notify("textDocument/didOpen", { textDocument: opened });
  }

  change(document, changes) {
    if (!isOurs(document)) return;
    const textDocument = { uri: document.uri.toString(), version: document.version };
    const contentChanges = changes.map(({ range, text }) => ({ range: convert.toRange(range), text }));
    this.connection.notify("textDocument/didChange", { textDocument, contentChanges });
  }

  tell(method, document) {
    if (isOurs(document)) this.connection.notify(method, named(document));
  }

  async stop() {
    this.isStopped = true;
    this.registered.splice(0).forEach((each) => each.dispose());
    const late = setTimeout(() => this.process.kill(), 2000);
    try {
      await this.connection.request("shutdown");
      this.connection.notify("exit");
    } catch {
      this.process.kill();
    }
    await this.ended;
    clearTimeout(late);
  }
}

/** Starts the server. If it isn't there, the user is told how to get it. */
async function start(output) {
  const command = vscode.workspace.getConfiguration("kozhvadi").get("server.command");
  const server = (running = new Server(command, output));
  starts += 1;
  server.ended.then((error) => ended(server, error, output));
  try {
    await server.begin();
  } catch (error) {
    output.appendLine(`${command.join(" ")}: ${error.message}`);
  }
}

async function ended(server, error, output) {
  if (server.isStopped) return;
  server.registered.splice(0).forEach((each) => each.dispose());
  if (running === server) running = null;
  const command = vscode.workspace.getConfiguration("kozhvadi").get("server.command");
  if (error.code === "ENOENT") {
    const words = `There is no \`${command[0]}\`. Install the Python module of Kozhvadi, or name its server in the setting kozhvadi.server.command.`;
    if ((await vscode.window.showErrorMessage(words, "Open the setting")) === "Open the setting") {
      vscode.commands.executeCommand("workbench.action.openSettings", "kozhvadi.server.command");
    }
  } else if (starts < MOST_STARTS) {
    await start(output);
  } else {
    vscode.window.showErrorMessage(`The language server for Fluent doesn't go on: ${error.message}. Its output is in the panel.`);
  }
}

async function restart(output) {
  starts = 0;
  await running?.stop();
  await start(output);
}

async function createFiles() {
  const uri = vscode.window.activeTextEditor?.document.uri.toString();
  try {
    await running?.connection.request("workspace/executeCommand", { command: CREATE_FILES, arguments: [uri] });
  } catch (error) {
    vscode.window.showErrorMessage(error.message);
  }
}

/** Starts the playground with the file of the editor, and opens its page once it has said where that is. */
function playground(context) {
  const file = vscode.window.activeTextEditor?.document.uri.fsPath;
  const [command, ...words] = vscode.workspace.getConfiguration("kozhvadi").get("playground.command");
  const served = spawn(command, [...words, "--port", "0", ...(file ? [file] : [])], { stdio: ["ignore", "pipe", "pipe"] });
  context.subscriptions.push({ dispose: () => served.kill() });
  let told = "";
  served.stderr.on("data", (data) => (told += data));
  return new Promise((resolve) => {
    served.on("error", () => resolve(vscode.window.showErrorMessage(`There is no \`${command}\`.`)));
    served.on("exit", () => resolve(told && vscode.window.showErrorMessage(told.trim())));
    served.stdout.once("data", (data) => resolve(vscode.env.openExternal(vscode.Uri.parse(data.toString().split(" ")[0]))));
  });
}

async function activate(context) {
  const output = vscode.window.createOutputChannel("Fluent");
  const { registerCommand } = vscode.commands;
  context.subscriptions.push(
    output,
    registerCommand("kozhvadi.restart", () => restart(output)),
    registerCommand("kozhvadi.createFiles", createFiles),
    registerCommand("kozhvadi.playground", () => playground(context)),
  );
  starts = 0;
  await start(output);
}

async function deactivate() {
  await running?.stop();
  running = null;
}

module.exports = { activate, deactivate };
