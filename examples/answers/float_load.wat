;; check => refused unsupported at 30
(module (memory 1) (func i32.const 0 f64.load drop))
