;; check => refused unsupported at 25
(module (func (result i32) unreachable i32.trunc_sat_f32_s))
