;; check => refused unsupported at 29
(module (import "env" "pair" (func (result i32 i32))))
