;; check => refused unsupported at 23
(module (func f32.const 1 drop))
