;; A function over three memories.
(module
  (type (func (param i32 i64)))
  (import "a" "" (memory 0))
  (import "b" "wide" (memory i64 65536))
  (import "é" "漢" (memory 3))
  (func (type 0) (local f32 f64 f64)
    local.get 1
    local.get 0
    i32.load 0 offset=4 align=4
    i32.store 1 offset=4294967295 align=4
    local.get 1
    local.get 0
    i64.load 0 align=1
    i64.store 1 align=2
    local.get 0
    local.get 1
    f32.load 1 offset=127 align=4
    local.tee 2
    f32.store 2 offset=128 align=4
    local.get 0
    local.get 1
    f64.load 1 align=4
    local.tee 4
    f64.store 0 align=8
    local.get 0
    local.get 1
    i32.load8_s 1
    i32.store8 2 offset=16383
    local.get 0
    local.get 1
    i32.load16_s 1 align=1
    i32.store16 0 offset=16384 align=2
    local.get 0
    local.get 0
    i32.load16_u 2 offset=65535 align=2
    i32.extend16_s
    i32.store16 2 align=1
    memory.size 0
    i32.const 1
    i32.and
    memory.size 2
    i32.eq
    if
      f32.const -1
      i32.reinterpret_f32
      f32.reinterpret_i32
      local.set 2
      f64.const nan:0x8000000000001
      i64.reinterpret_f64
      f64.reinterpret_i64
      local.set 3
    end
    memory.size 1
    i64.const 65535
    i64.gt_u
    i32.eqz
    br_if 0
    unreachable)
  (export "copy" (func 0)))
