; A child stores %n, and the parent reads the same cell.
@a = global [1 x i64] zeroinitializer
define i64 @main(i64 %n) {
  ;! writes @a 0 1
  ;! budget 0 8
entry:
  ;! left 0 8
  %s = call token @llvm.syncregion.start()
  detach within %s, label %child, label %rest
child:
  ;! left 0 2
  ;! foot writes @a 0 1
  store i64 %n, ptr @a
  reattach within %s, label %rest
rest:
  ;! pending %s writes @a 0 1
  ;! left 0 4
  %x = load i64, ptr @a
  sync within %s, label %done
done:
  ;! left 0 2
  ret i64 %x
}
