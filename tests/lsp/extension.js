// Runs the extension for VS Code over a stand-in of its API, and prints what it shows. usage: extension.js PYTHON SERVER FOLDER
"use strict";
const fs = require("fs");
const Module = require("module");
const path = require("path");
const [python, server, folder] = process.argv.slice(2);

class Range {
  constructor(line, character, endLine, endCharacter) {
    this.start = { line, character };
    this.end = { line: endLine, character: endCharacter };
  }
}
const made = (name) =>
  class {
    constructor(...values) {
      this.kind = name;
      this.values = values;
    }
  };
class Uri {
  static parse(text) {
    return new Uri(text);
  }
  constructor(text) {
    this.text = text;
    const url = new URL(text);
    this.scheme = url.protocol.slice(0, -1);
    this.path = this.fsPath = decodeURIComponent(url.pathname);
  }
  toString() {
    return this.text;
  }
}
const disposable = { dispose() {} };
const registered = {};
const shown = {};
const listeners = {};
const listen = (name) => (listener) => {
  listeners[name] = listener;
  return disposable;
};
const languages = new Proxy(
  {
    createDiagnosticCollection: () => ({ set: (uri, found) => (shown[uri] = found), clear() {}, dispose() {} }),
    setTextDocumentLanguage: (document) => {
      document.languageId = "resb";
      listeners.onDidOpenTextDocument(document);
    },
  },
  { get: (known, name) => known[name] || ((selector, provider) => ((registered[name] = provider || selector), disposable)) },
);
const document = {
  uri: new Uri(`file://${folder}/de.txt`),
  languageId: "plaintext",
  version: 1,
  getText: () => fs.readFileSync(path.join(folder, "de.txt"), "utf8"),
};
class WorkspaceEdit {
  constructor() {
    this.edits = {};
  }
  set(uri, edits) {
    this.edits[uri] = edits;
  }
}
const settings = { server: [python, server], program: "", cldrParents: false };
const vscode = {
  Range, Uri, WorkspaceEdit, languages,
  CodeActionKind: { Empty: { append: (kind) => kind } },
  TextEdit: { replace: (range, text) => ({ range, text }) },
  workspace: {
    textDocuments: [document],
    workspaceFolders: [{ uri: new Uri(`file://${folder}`), name: "it" }],
    getConfiguration: () => ({ get: (name) => settings[name] }),
    onDidOpenTextDocument: listen("onDidOpenTextDocument"),
    onDidChangeTextDocument: listen("onDidChangeTextDocument"),
    onDidCloseTextDocument: listen("onDidCloseTextDocument"),
    onDidSaveTextDocument: listen("onDidSaveTextDocument"),
  },
  window: { showErrorMessage: (message) => console.error(message) },
};
for (const name of ["CodeAction", "CompletionItem", "Diagnostic", "DocumentSymbol", "FoldingRange", "Hover", "Location", "MarkdownString", "SymbolInformation"]) {
  vscode[name] = made(name);
}
const load = Module._load;
Module._load = (name, ...more) => (name === "vscode" ? vscode : load(name, ...more));

async function until(holds) {
  for (let turn = 0; turn < 600 && !holds(); turn++) await new Promise((done) => setTimeout(done, 50));
}

async function main() {
  const extension = require(path.join(__dirname, "../../editors/vscode/extension.js"));
  const subscriptions = [];
  // the texts are sent at the end of activation, and setTextDocumentLanguage needs the listener
  listeners.onDidOpenTextDocument = () => {};
  await extension.activate({ subscriptions });
  listeners.onDidOpenTextDocument(document);
  const name = document.uri.toString();
  await until(() => shown[name] && shown[name].length);
  const place = { line: 2, character: 10 };
  const token = { onCancellationRequested() {} };
  const all = new Range(0, 0, 9, 0);
  const found = {
    language: document.languageId,
    diagnostics: shown[name].map((it) => it.code.value),
    hover: (await registered.registerHoverProvider.provideHover(document, place, token)).values[0].values[0],
    definition: (await registered.registerDefinitionProvider.provideDefinition(document, place, token))[0].values[0].toString(),
    references: (await registered.registerReferenceProvider.provideReferences(document, place, { includeDeclaration: true }, token)).length,
    symbols: (await registered.registerDocumentSymbolProvider.provideDocumentSymbols(document, token))[0].values[0],
    symbolsOfAll: (await registered.registerWorkspaceSymbolProvider.provideWorkspaceSymbols("menu/", token)).length,
    foldings: (await registered.registerFoldingRangeProvider.provideFoldingRanges(document, {}, token)).length,
    formatting: (await registered.registerDocumentFormattingEditProvider.provideDocumentFormattingEdits(document, {}, token)).length,
    completions: (await registered.registerCompletionItemProvider.provideCompletionItems(document, { line: 4, character: 0 }, token)).map((it) => it.values[0]),
    rename: Object.keys((await registered.registerRenameProvider.provideRenameEdits(document, place, "new", token)).edits).length,
    actions: (await registered.registerCodeActionsProvider.provideCodeActions(document, all, { diagnostics: [] }, token)).map((it) => it.values[0]),
  };
  listeners.onDidChangeTextDocument({ document: { ...document, version: 2 }, contentChanges: [{ range: new Range(0, 0, 0, 0), text: "}" }] });
  const before = shown[name];
  await until(() => shown[name] !== before);
  found.changed = shown[name].map((it) => it.code.value);
  await extension.deactivate();
  console.log(JSON.stringify(found));
}

main().catch((error) => {
  console.error(error);
  process.exit(1);
});
