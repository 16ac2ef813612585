;; check => refused unsupported at 21
(module (import "env" "table" (table 1 funcref)))
