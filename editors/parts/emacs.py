"""The mode of Emacs."""
from parts.tokens import MADE


def quoted(text):
    """A string of Emacs Lisp."""
    return '"' + text.replace("\\", "\\\\").replace('"', '\\"') + '"'


def listed(words):
    """A list of strings."""
    return "'(" + " ".join(quoted(word) for word in words) + ")"


class Mode:
    """The mode: its table of characters, its faces, and how lines are indented."""

    def __init__(self, tokens):
        self.tokens, self.shapes = tokens, tokens.shapes
        self.word = f"[{self.shapes['letters']}][{self.shapes['behind_a_letter']}]*"

    def constants(self):
        """The lists of tokens."""
        for form in ("keywords", "predeclared", "symbols"):
            for each in self.tokens.of(form):
                about = quoted(f"Tokens of the class `{each.name}'.")
                yield f"(defconst orca-{each.name.replace(' ', '-')}-tokens {listed(each.tokens)}\n  {about})"

    def characters(self):
        """The entries of the table of characters."""
        brackets = set(self.tokens.classes["bracket"].tokens)
        signs = sorted({sign for token in self.tokens.words("symbols") for sign in token} - brackets)
        yield f"(dolist (sign (string-to-list {quoted(''.join(signs))})) (modify-syntax-entry sign \".\" table))"
        yield 'modify-syntax-entry ?_ "_" table'
        yield f"modify-syntax-entry ?{self.shapes['comment']} \"<\" table"
        yield 'modify-syntax-entry ?\\n ">" table'
        yield from (f'modify-syntax-entry ?\\{self.shapes[quote]} "\\"" table' for quote in ("char", "string"))
        yield 'modify-syntax-entry ?\\\\ "\\\\" table'

    def table(self):
        """The table of characters."""
        entries = [entry if entry.startswith("(") else f"({entry})" for entry in self.characters()]
        lines = "\n    ".join(["(let ((table (make-syntax-table)))", *entries, "table)"])
        return f"(defvar orca-mode-syntax-table\n  {lines}\n  \"What characters are in Orca.\")"

    def rule(self, pattern, name, group):
        """A rule for what matches a pattern."""
        return f"({quoted(pattern)} {group} ''{self.tokens.classes[name].emacs})"

    def rules(self):
        """The rules, in the order in which they are tried; what has a face keeps it."""
        for form in ("keywords", "predeclared"):
            for each in self.tokens.of(form):
                yield f"((regexp-opt orca-{each.name.replace(' ', '-')}-tokens 'symbols) 0 ''{each.emacs})"
        for name, tokens in self.tokens.named_behind.items():
            words = "\\|".join(token for token in tokens if token[0].isalpha())
            yield self.rule(f"\\_<\\(?:{words}\\)[[:blank:]]+\\({self.word}\\)", name, 1)
        yield self.rule(f":[[:blank:]]*\\({self.word}\\)", "type name", 1)
        yield self.rule(f"\\({self.word}\\)[[:blank:]]*(", "function name", 1)
        yield self.rule(f"\\_<[{self.shapes['digits']}]+", "number", 0)
        for each in self.tokens.symbols():
            yield f"((regexp-opt orca-{each.name.replace(' ', '-')}-tokens) 0 ''{each.emacs})"
        begins = {sign for token in self.tokens.words("symbols") for sign in token} | set(self.shapes["char"] + self.shapes["string"])
        strays = "".join(chr(code) for code in range(33, 127) if not chr(code).isalnum() and chr(code) not in begins | {"#", "_", "^"})
        yield self.rule(f"[{strays}^]\\|\\_<_\\|[^[:ascii:]]", "wrong", 0)

    def font_lock(self):
        """The rules as a list."""
        rows = "\n   ".join(f"(list {rule[1:-1]})" for rule in self.rules())
        return f"(defconst orca-font-lock-keywords\n  (list\n   {rows})\n  \"What is coloured in Orca.\")"

    def indentation(self):
        """How lines are indented."""
        opening, lines, closing = (listed(self.tokens.indentation[name]) for name in ("opening", "opening_line", "closing"))
        return f"""(defcustom orca-indent-step 2
  "How many columns a step further in is."
  :type 'integer :group 'languages)
(defconst orca-opening-line
  (concat "^[^#\\n]*" (regexp-opt {opening} 'symbols) "[ \\t]*\\\\(?:#.*\\\\)?$\\\\|^[ \\t]*"
          (regexp-opt {lines} 'symbols) "[^#\\n]*;[ \\t]*\\\\(?:#.*\\\\)?$")
  "A line behind which lines stand further in.")
(defconst orca-closing-line (concat "[ \\t]*" (regexp-opt {closing} 'symbols))
  "A line that stands further out.")
(defun orca-indent-line ()
  "Indent this line by the line before it."
  (interactive)
  (let ((column (save-excursion
                  (beginning-of-line)
                  (let ((closes (looking-at orca-closing-line)) (first (bobp)))
                    (skip-chars-backward " \\t\\n")
                    (beginning-of-line)
                    (+ (if first 0 (current-indentation))
                       (if (and (looking-at orca-opening-line) (not first)) orca-indent-step 0)
                       (if closes (- orca-indent-step) 0))))))
    (if (<= (current-column) (current-indentation))
        (indent-line-to (max 0 column))
      (save-excursion (indent-line-to (max 0 column))))))"""

    def text(self):
        """The whole file."""
        sign = self.shapes["comment"]
        faces = [
            f"(defface orca-{word}-face '((t nil)) \"Face of {word}s in Orca.\" :group 'languages)" for word in ("operator", "delimiter")
        ]
        mode = f"""(define-derived-mode orca-mode prog-mode "Orca"
  "Major mode for programs in Orca."
  (setq-local comment-start "{sign} ")
  (setq-local comment-start-skip "{sign}+[ \\t]*")
  (setq-local font-lock-defaults '(orca-font-lock-keywords))
  (setq-local indent-line-function #'orca-indent-line)
  (setq-local indent-tabs-mode nil))"""
        parts = [*self.constants(), *faces, self.table(), self.font_lock(), self.indentation(), ";;;###autoload", mode, ";;;###autoload"]
        parts += ["(add-to-list 'auto-mode-alist '(\"\\\\.orca\\\\'\" . orca-mode))", "(provide 'orca-mode)"]
        head = f";;; orca-mode.el --- Mode for programs in Orca  -*- lexical-binding: t; -*-\n;; {MADE}\n;;; Code:\n"
        return head + "\n".join(parts) + "\n;;; orca-mode.el ends here\n"


def files(tokens):
    """The file, by name in editors/."""
    return {"emacs/orca-mode.el": Mode(tokens).text()}
