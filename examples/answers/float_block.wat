;; check => refused unsupported at 24
(module (func block (result f32) unreachable end drop))
