;; check => refused unsupported at 22
(module (import "env" "memory" (memory 1)))
