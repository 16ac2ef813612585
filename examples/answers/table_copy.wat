;; check => refused unsupported at 35
(module (table 1 funcref) (func i32.const 0 i32.const 0 i32.const 1 table.copy))
