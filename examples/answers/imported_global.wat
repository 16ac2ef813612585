;; check => refused unsupported at 20
(module (import "env" "base" (global i32)))
