;; check => refused unsupported at 24
(module (func unreachable f32.add drop))
