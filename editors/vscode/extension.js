// Runs lego on a script: the answers go to an output channel, the refusals to the list of problems, at their places.
const { spawn } = require("child_process");

const REFUSED = /^refused (\d+):(\d+) (\d+) (.*)$/;

// The refusals among the answers, each with the lines that stand below it, as those of a cycle. Lines and columns are from 0.
function refusals(answers) {
  const found = [];
  for (const line of answers.split("\n")) {
    const parts = REFUSED.exec(line);
    if (parts) {
      found.push({ line: parts[1] - 1, column: parts[2] - 1, number: Number(parts[3]), text: parts[4] });
    } else if (line.startsWith("  ") && found.length > 0) {
      found[found.length - 1].text += "\n" + line;
    }
  }
  return found;
}

// Columns of lego count bytes: the character at a byte of a line.
function characterAt(text, bytes) {
  return Buffer.from(text, "utf8").subarray(0, bytes).toString("utf8").length;
}

function activate(context) {
  const vscode = require("vscode");
  const channel = vscode.window.createOutputChannel("lego", "lego");
  const problems = vscode.languages.createDiagnosticCollection("lego");

  function problemAt(document, refusal) {
    const line = Math.min(refusal.line, document.lineCount - 1);
    const place = new vscode.Position(line, characterAt(document.lineAt(line).text, refusal.column));
    const range = document.getWordRangeAtPosition(place) || new vscode.Range(place, place.translate(0, 1));
    const problem = new vscode.Diagnostic(range, refusal.text, vscode.DiagnosticSeverity.Error);
    problem.source = "lego";
    problem.code = refusal.number;
    return problem;
  }

  function run() {
    const editor = vscode.window.activeTextEditor;
    if (!editor) return;
    const document = editor.document;
    const program = vscode.workspace.getConfiguration("lego").get("program");
    const ran = spawn(program, [], { stdio: ["pipe", "pipe", "pipe"] });
    const pieces = [];
    channel.clear();
    channel.show(true);
    ran.stdout.on("data", (piece) => pieces.push(piece));
    ran.stderr.on("data", (piece) => channel.append(piece.toString()));
    ran.on("error", (fault) => vscode.window.showErrorMessage(`lego: ${fault.message}`));
    ran.on("close", (status) => {
      const answers = Buffer.concat(pieces).toString();
      channel.append(answers);
      channel.appendLine(`(* status ${status} *)`);
      problems.set(document.uri, refusals(answers).map((it) => problemAt(document, it)));
    });
    ran.stdin.on("error", () => {});
    ran.stdin.end(document.getText());
  }

  const clear = vscode.workspace.onDidCloseTextDocument((document) => problems.delete(document.uri));
  context.subscriptions.push(channel, problems, clear, vscode.commands.registerCommand("lego.run", run));
}

module.exports = { activate, refusals, characterAt };
