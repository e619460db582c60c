;;; kiv-mode.el --- Projects of kivd, its commands and its answers  -*- lexical-binding: t; -*-
;; A test compares the words with those of kv_table.

(defconst kiv-keywords
  '("project" "unit" "basic" "enrich" "union" "rename" "param" "using" "actualize" "module" "export" "import" "by"
    "with" "end" "sort" "data" "fun" "pred" "proc" "generated" "axiom" "theorem" "proof" "qed" "simp" "restrict"
    "equating" "measure" "below" "from" "true" "false" "not" "and" "or" "all" "ex" "skip" "abort" "if" "then" "else"
    "while" "do" "var" "in" "open" "as")
  "Words that are no names.")

(defconst kiv-rules
  '("close" "falseL" "trueR" "notL" "notR" "andL" "orR" "andR" "orL" "impL" "impR" "iffL" "iffR" "dropL" "dropR" "cut"
    "allR" "exL" "allL" "exR" "refl" "swap" "subst" "use" "induct" "skip" "abort" "assign" "seq" "cond" "local"
    "unwind" "call" "inv" "rec" "dual" "mono" "simp")
  "Words that begin a step.")

(defconst kiv-commands
  '("add" "put" "drop" "theorem" "change" "forget" "proof" "unproof" "prune" "status" "state" "goals" "needs" "above"
    "graph" "flat" "obligations" "text" "seal" "save")
  "Words that begin a command.")

(defconst kiv-states
  '("ill" "broken" "open" "proved" "waiting" "cyclic" "idle" "ok" "bad" "refined" "unrefined")
  "Words that a row of an answer has behind its name.")

(defconst kiv-reasons
  '("cycle" "missing" "kind" "below" "clash" "unknown" "arity" "sort" "duplicate" "program" "constructor" "partial"
    "profile" "injective" "lost" "bodies" "export" "absent" "reach" "limit" "unit" "position" "shape" "fresh"
    "captured" "label" "body" "generation" "large" "surplus")
  "Words behind the state of a row.")

(defvar kiv-font-lock
  `((,(concat "^" (regexp-opt kiv-commands 'symbols)) . font-lock-builtin-face)
    (,(concat "^\\(?:unit\\|theorem\\|proof\\) [^ \n]+ " (regexp-opt kiv-states 'symbols)) 1 font-lock-type-face)
    (,(concat "^\\(?:unit\\|theorem\\) [^ \n]+ \\(?:bad\\|ill\\|broken [0-9.]+ [^ \n]+\\) " (regexp-opt kiv-reasons 'symbols))
     1 font-lock-warning-face)
    (,(concat "[=;{|][ \t\n]*" (regexp-opt kiv-rules 'symbols)) 1 font-lock-function-name-face)
    (,(regexp-opt kiv-keywords 'symbols) . font-lock-keyword-face)))

(defvar kiv-syntax
  (let ((table (make-syntax-table)))
    (modify-syntax-entry ?% "<" table)
    (modify-syntax-entry ?\n ">" table)
    (modify-syntax-entry ?_ "w" table)
    table))

;;;###autoload
(define-derived-mode kiv-mode prog-mode "kiv"
  "Projects of kivd."
  :syntax-table kiv-syntax
  (setq-local comment-start "% ")
  (setq-local font-lock-defaults '(kiv-font-lock)))

;;;###autoload
(add-to-list 'auto-mode-alist '("\\.kiv\\'" . kiv-mode))

(provide 'kiv-mode)
;;; kiv-mode.el ends here
