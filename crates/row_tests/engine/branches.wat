;; Functions that branch and call.
(module
  (type (func (param i32) (result i32)))
  (type (func (param i32) (result i32 i32)))
  (type (func))
  (import "m" "first" (func (type 2)))
  (import "m" "second" (func (type 0)))
  (func (type 0)
    block (result i32)
      block (result i32)
        i32.const 64
        local.get 0
        br_table 0 1 0 1 1
      end
      i32.const -64
      i32.mul
    end
    block (type 1)
      i32.const 63
    end
    i32.xor
    local.get 0
    if (type 0)
      i32.const 0x7fffffff
      i32.or
    else
      call 1
      call 2
    end
    i32.const 0x80000000
    local.get 0
    select)
  (func (type 2) (local funcref i32 i32 i64 funcref)
    ref.func 0
    drop
    ref.func 2
    drop
    loop
      local.get 1
      i32.const 128
      i32.lt_u
      if
        call 0
        br 1
      end
      local.get 3
      i64.eqz
      br_if 0
      local.get 3
      i64.const 0xffffffffffffff7f
      i64.add
      local.get 3
      i64.shl
      local.get 3
      i64.shr_u
      local.get 3
      i64.and
      local.get 3
      i64.sub
      local.get 3
      i64.ne
      local.get 1
      i32.gt_u
      drop
      local.get 3
      local.get 3
      i64.ge_u
      local.get 3
      local.get 3
      i64.eq
      i32.eq
      local.get 3
      i32.wrap_i64
      i32.ne
      drop
    end)
  (export "choose" (func 2))
  (export "first" (func 0))
  (export "" (func 3)))
