@in = global [64 x i64] zeroinitializer
@out = global [64 x i64] zeroinitializer
define void @copy(ptr noalias dereferenceable(512) %p, ptr noalias dereferenceable(512) %q, i64 %lo) {
;! requires %lo >= 0
;! requires %lo <= 56
;! reads %p 0 64
;! writes %q %lo %lo+8
entry:
%l = getelementptr inbounds i64, ptr %p, i64 %lo
%x = load i64, ptr %l
%k = add nsw i64 %lo, 7
%s = getelementptr inbounds i64, ptr %q, i64 %k
store i64 %x, ptr %s
ret void
}
define i64 @main() {
;! reads @in 0 64
;! writes @out 0 64
entry:
%s = call token @llvm.syncregion.start()
br label %head
head:
;! keeps %lo >= 0
;! pending %s reads @in 0 64
;! pending %s writes @out 0 %lo
%lo = phi i64 [ 0, %entry ], [ %k, %next ]
%c = icmp sle i64 %lo, 56
br i1 %c, label %fork, label %done
fork:
;! keeps %lo >= 0
;! keeps %lo <= 56
;! pending %s reads @in 0 64
;! pending %s writes @out 0 %lo
detach within %s, label %body, label %next
body:
;! keeps %lo >= 0
;! keeps %lo <= 56
;! foot reads @in 0 64
;! foot writes @out %lo %lo+8
call void @copy(ptr @in, ptr @out, i64 %lo)
reattach within %s, label %next
next:
;! keeps %lo >= 0
;! keeps %lo <= 56
;! pending %s reads @in 0 64
;! pending %s writes @out 0 %lo+8
%k = add nsw i64 %lo, 8
br label %head
done:
;! pending %s reads @in 0 64
;! pending %s writes @out 0 %lo
sync within %s, label %out
out:
%x = load i64, ptr @out
ret i64 %x
}
