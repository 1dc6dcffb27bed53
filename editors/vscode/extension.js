// A client of resb-lsp without other packages: it starts the server, sends it the open texts, and asks it for what VS Code shows.
"use strict";
const vscode = require("vscode");
const childProcess = require("child_process");
const fs = require("fs");
const path = require("path");

/** Reads and writes the protocol's messages over a process. */
class Connection {
  constructor(command, onNotice, onEnd) {
    this.process = childProcess.spawn(command[0], command.slice(1), { stdio: ["pipe", "pipe", "inherit"] });
    this.pending = new Map();
    this.next = 1;
    this.bytes = Buffer.alloc(0);
    this.onNotice = onNotice;
    this.process.stdout.on("data", (data) => this.receive(data));
    this.process.stdin.on("error", () => {});
    this.process.on("error", (error) => this.end(onEnd, String(error.message)));
    this.process.on("exit", (code) => this.end(onEnd, `resb-lsp ended with status ${code}`));
  }

  end(onEnd, message) {
    for (const { reject } of this.pending.values()) reject(new Error(message));
    this.pending.clear();
    onEnd(message);
  }

  receive(data) {
    this.bytes = Buffer.concat([this.bytes, data]);
    for (;;) {
      const head = this.bytes.indexOf("\r\n\r\n");
      if (head < 0) return;
      const length = Number(/content-length: *(\d+)/i.exec(this.bytes.toString("latin1", 0, head))[1]);
      if (this.bytes.length < head + 4 + length) return;
      const message = JSON.parse(this.bytes.toString("utf8", head + 4, head + 4 + length));
      this.bytes = this.bytes.subarray(head + 4 + length);
      this.handle(message);
    }
  }

  handle(message) {
    if (message.method) {
      this.onNotice(message.method, message.params);
      return;
    }
    const asked = this.pending.get(message.id);
    this.pending.delete(message.id);
    if (!asked) return;
    if (message.error) asked.reject(new Error(message.error.message));
    else asked.resolve(message.result);
  }

  send(message) {
    const body = Buffer.from(JSON.stringify({ jsonrpc: "2.0", ...message }));
    this.process.stdin.write(Buffer.concat([Buffer.from(`Content-Length: ${body.length}\r\n\r\n`), body]));
  }

  notify(method, params) {
    this.send({ method, params });
  }

  ask(method, params, token) {
    const id = this.next++;
    if (token) token.onCancellationRequested(() => this.notify("$/cancelRequest", { id }));
    return new Promise((resolve, reject) => {
      this.pending.set(id, { resolve, reject });
      this.send({ id, method, params });
    });
  }
}

const rangeOf = (it) => new vscode.Range(it.start.line, it.start.character, it.end.line, it.end.character);
const placeOf = (it) => ({ line: it.line, character: it.character });
const sentRange = (it) => ({ start: placeOf(it.start), end: placeOf(it.end) });
const locationOf = (it) => new vscode.Location(vscode.Uri.parse(it.uri), rangeOf(it.range));
const named = (document) => ({ textDocument: { uri: document.uri.toString() } });
const editsOf = (edits) => (edits || []).map((it) => vscode.TextEdit.replace(rangeOf(it.range), it.newText));

function workspaceEditOf(edit) {
  const made = new vscode.WorkspaceEdit();
  for (const [uri, edits] of Object.entries(edit.changes)) made.set(vscode.Uri.parse(uri), editsOf(edits));
  return made;
}

function diagnosticOf(it) {
  const made = new vscode.Diagnostic(rangeOf(it.range), it.message, it.severity - 1);
  made.source = it.source;
  const target = it.codeDescription && vscode.Uri.parse(it.codeDescription.href);
  made.code = target ? { value: it.code, target } : it.code;
  return made;
}

function sentDiagnostic(it) {
  const code = it.code && it.code.value !== undefined ? it.code.value : it.code;
  return { range: sentRange(it.range), message: it.message, severity: it.severity + 1, code, source: it.source };
}

function symbolOf(it) {
  const made = new vscode.DocumentSymbol(it.name, it.detail, it.kind - 1, rangeOf(it.range), rangeOf(it.selectionRange));
  made.children = it.children.map(symbolOf);
  return made;
}

function completionOf(it) {
  const made = new vscode.CompletionItem(it.label, it.kind - 1);
  made.detail = it.detail;
  made.documentation = it.documentation;
  made.range = rangeOf(it.textEdit.range);
  made.insertText = it.textEdit.newText;
  return made;
}

function actionOf(it) {
  const made = new vscode.CodeAction(it.title, vscode.CodeActionKind.Empty.append(it.kind));
  made.edit = workspaceEditOf(it.edit);
  made.isPreferred = it.isPreferred;
  made.diagnostics = (it.diagnostics || []).map(diagnosticOf);
  return made;
}

/** Registers what the server answers. Each provider sends one request and converts its result. */
function providers(connection) {
  const texts = [{ language: "resb" }, { scheme: "file", pattern: "**/*.txt" }];
  const at = (method, document, position, token, more) =>
    connection.ask(`textDocument/${method}`, { ...named(document), position: placeOf(position), ...more }, token);
  const languages = vscode.languages;
  return [
    languages.registerHoverProvider(texts, {
      provideHover: async (document, position, token) => {
        const found = await at("hover", document, position, token);
        return found && new vscode.Hover(new vscode.MarkdownString(found.contents.value), rangeOf(found.range));
      },
    }),
    languages.registerDefinitionProvider(texts, {
      provideDefinition: async (...asked) => ((await at("definition", ...asked)) || []).map(locationOf),
    }),
    languages.registerReferenceProvider(texts, {
      provideReferences: async (document, position, context, token) =>
        ((await at("references", document, position, token, { context })) || []).map(locationOf),
    }),
    languages.registerCompletionItemProvider(
      texts,
      { provideCompletionItems: async (...asked) => ((await at("completion", ...asked.slice(0, 3))) || []).map(completionOf) },
      ":", "{", "%",
    ),
    languages.registerRenameProvider(texts, {
      provideRenameEdits: async (document, position, newName, token) =>
        workspaceEditOf(await at("rename", document, position, token, { newName })),
      prepareRename: async (...asked) => {
        const found = await at("prepareRename", ...asked);
        return { range: rangeOf(found.range), placeholder: found.placeholder };
      },
    }),
    languages.registerDocumentFormattingEditProvider(texts, {
      provideDocumentFormattingEdits: async (document, options, token) =>
        editsOf(await connection.ask("textDocument/formatting", { ...named(document), options }, token)),
    }),
    languages.registerDocumentRangeFormattingEditProvider(texts, {
      provideDocumentRangeFormattingEdits: async (document, range, options, token) =>
        editsOf(await connection.ask("textDocument/rangeFormatting", { ...named(document), range: sentRange(range), options }, token)),
    }),
    languages.registerDocumentSymbolProvider(texts, {
      provideDocumentSymbols: async (document, token) =>
        ((await connection.ask("textDocument/documentSymbol", named(document), token)) || []).map(symbolOf),
    }),
    languages.registerWorkspaceSymbolProvider({
      provideWorkspaceSymbols: async (query, token) =>
        (await connection.ask("workspace/symbol", { query }, token)).map(
          (it) => new vscode.SymbolInformation(it.name, it.kind - 1, it.containerName, locationOf(it.location)),
        ),
    }),
    languages.registerFoldingRangeProvider(texts, {
      provideFoldingRanges: async (document, context, token) =>
        ((await connection.ask("textDocument/foldingRange", named(document), token)) || []).map(
          (it) => new vscode.FoldingRange(it.startLine, it.endLine),
        ),
    }),
    languages.registerCodeActionsProvider(texts, {
      provideCodeActions: async (document, range, context, token) => {
        const only = context.only ? { only: [context.only.value] } : {};
        const asked = { diagnostics: context.diagnostics.map(sentDiagnostic), ...only };
        const params = { ...named(document), range: sentRange(range), context: asked };
        return ((await connection.ask("textDocument/codeAction", params, token)) || []).map(actionOf);
      },
    }),
  ];
}

const isSent = (document) =>
  document.languageId === "resb" || (document.uri.scheme === "file" && /\.txt$|\/resb\.toml$/.test(document.uri.path));

/** Sets the language of a text beside root.txt, which opens it anew. */
function setLanguage(it) {
  const isText = it.languageId === "plaintext" && it.uri.scheme === "file" && it.uri.path.endsWith(".txt");
  const isBundle = isText && fs.existsSync(path.join(path.dirname(it.uri.fsPath), "root.txt"));
  if (isBundle) vscode.languages.setTextDocumentLanguage(it, "resb");
  return isBundle;
}

/** Sends the texts that are open, and their changes. */
function documents(connection) {
  const opened = (it) => {
    if (setLanguage(it)) return;
    const sent = { uri: it.uri.toString(), languageId: it.languageId, version: it.version, text: it.getText() };
    if (isSent(it)) connection.notify("textDocument/didOpen", { textDocument: sent });
  };
  vscode.workspace.textDocuments.forEach(opened);
  return [
    vscode.workspace.onDidOpenTextDocument(opened),
    vscode.workspace.onDidCloseTextDocument((it) => isSent(it) && connection.notify("textDocument/didClose", named(it))),
    vscode.workspace.onDidSaveTextDocument((it) => isSent(it) && connection.notify("textDocument/didSave", named(it))),
    vscode.workspace.onDidChangeTextDocument(({ document, contentChanges }) => {
      if (!isSent(document) || !contentChanges.length) return;
      const changes = contentChanges.map((it) => ({ range: sentRange(it.range), text: it.text }));
      const textDocument = { uri: document.uri.toString(), version: document.version };
      connection.notify("textDocument/didChange", { textDocument, contentChanges: changes });
    }),
  ];
}

let running;

async function activate(context) {
  const settings = vscode.workspace.getConfiguration("resb");
  const shown = vscode.languages.createDiagnosticCollection("resb");
  const onNotice = (method, params) => {
    if (method === "textDocument/publishDiagnostics") shown.set(vscode.Uri.parse(params.uri), params.diagnostics.map(diagnosticOf));
  };
  const connection = new Connection(settings.get("server"), onNotice, (message) => {
    shown.clear();
    if (running === connection) vscode.window.showErrorMessage(`resb: ${message}`);
  });
  running = connection;
  await connection.ask("initialize", {
    processId: process.pid,
    rootUri: null,
    workspaceFolders: (vscode.workspace.workspaceFolders || []).map((it) => ({ uri: it.uri.toString(), name: it.name })),
    capabilities: { textDocument: { publishDiagnostics: { versionSupport: true } } },
    initializationOptions: { program: settings.get("program"), cldrParents: settings.get("cldrParents") },
  });
  connection.notify("initialized", {});
  context.subscriptions.push(shown, ...providers(connection), ...documents(connection));
}

async function deactivate() {
  const connection = running;
  running = undefined;
  if (!connection) return;
  await connection.ask("shutdown", null);
  connection.notify("exit", null);
}

module.exports = { activate, deactivate };
