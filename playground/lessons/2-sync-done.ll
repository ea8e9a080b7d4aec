; Two children fill a cell each. The function ends while they may still run.
@a = global [2 x i64] zeroinitializer
define i64 @main(i64 %n) {
  ;! writes @a 0 2
  ;! budget 0 16
entry:
  ;! left 0 16
  %s = call token @llvm.syncregion.start()
  detach within %s, label %one, label %next
one:
  ;! left 0 2
  ;! foot writes @a 0 1
  store i64 %n, ptr @a
  reattach within %s, label %next
next:
  ;! pending %s writes @a 0 1
  ;! left 0 11
  detach within %s, label %two, label %rest
two:
  ;! left 0 3
  ;! foot writes @a 1 2
  %p = getelementptr inbounds i64, ptr @a, i64 1
  store i64 %n, ptr %p
  reattach within %s, label %rest
rest:
  ;! pending %s writes @a 0 2
  ;! left 0 5
  sync within %s, label %done
done:
  ;! left 0 1
  ret i64 %n
}
