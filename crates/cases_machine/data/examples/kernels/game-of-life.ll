; Conway's game of life on a board of 64 rows and 64 columns whose edges meet: 2*%t steps. A cell of @now lives if it is 1 and is dead
; if it is 0. A child does a row of a step; all children of a step read the whole of one board and write rows of the other.
; Of its annotations an author wrote 34, and `tapirvm annotate` the others.
@now = global [4096 x i64] zeroinitializer
@next = global [4096 x i64] zeroinitializer

define i64 @cell(ptr noalias dereferenceable(32768) %board, i64 %row, i64 %column) {
  ;! reads %board 0 4096
  ;! budget 0 7
entry:
  ;! left 0 7
  %down = shl i64 %row, 6
  %right = and i64 %column, 63
  %at = or i64 %down, %right
  %in = and i64 %at, 4095
  %p = getelementptr inbounds i64, ptr %board, i64 %in
  %x = load i64, ptr %p
  ret i64 %x
}

define void @row(ptr noalias dereferenceable(32768) %now, ptr noalias dereferenceable(32768) %next, i64 %r) {
  ;! requires %r >= 0
  ;! requires %r <= 63
  ;! reads %now 0 4096
  ;! writes %next 64*%r 64*%r+64
  ;! budget 0 5767
entry:
  ;! left 0 5767
  %north = sub nsw i64 %r, 1
  %south = add nsw i64 %r, 1
  ;! shows 64*%r >= 0
  ;! shows 64*%r <= 4032
  %first = mul nsw i64 %r, 64
  ;! shows %first >= 0
  ;! shows %first <= 4032
  br label %head
head:
  ;! keeps %r >= 0
  ;! keeps %r <= 63
  ;! keeps %first <= 64*%r
  ;! keeps 64*%r <= %first
  ;! keeps %c >= 0
  ;! keeps %c <= 64
  ;! left 0 5763-90*%c
  %c = phi i64 [ 0, %entry ], [ %c1, %set ]
  %more = icmp slt i64 %c, 64
  br i1 %more, label %count, label %done
count:
  ;! keeps %r >= 0
  ;! keeps %r <= 63
  ;! keeps %c >= 0
  ;! keeps 64*%r >= 0
  ;! keeps 64*%r <= 4032
  ;! keeps %c <= 63
  ;! keeps %first <= 64*%r
  ;! keeps 64*%r <= %first
  ;! left 0 5761-90*%c
  %west = sub nsw i64 %c, 1
  %east = add nsw i64 %c, 1
  %nw = call i64 @cell(ptr %now, i64 %north, i64 %west)
  %n = call i64 @cell(ptr %now, i64 %north, i64 %c)
  %ne = call i64 @cell(ptr %now, i64 %north, i64 %east)
  %w = call i64 @cell(ptr %now, i64 %r, i64 %west)
  %x = call i64 @cell(ptr %now, i64 %r, i64 %c)
  %e = call i64 @cell(ptr %now, i64 %r, i64 %east)
  %sw = call i64 @cell(ptr %now, i64 %south, i64 %west)
  %s = call i64 @cell(ptr %now, i64 %south, i64 %c)
  %se = call i64 @cell(ptr %now, i64 %south, i64 %east)
  %n1 = add i64 %nw, %n
  %n2 = add i64 %n1, %ne
  %n3 = add i64 %n2, %w
  %n4 = add i64 %n3, %e
  %n5 = add i64 %n4, %sw
  %n6 = add i64 %n5, %s
  %n7 = add i64 %n6, %se
  switch i64 %n7, label %set [ i64 2, label %stays i64 3, label %lives ]
stays:
  ;! keeps %r >= 0
  ;! keeps %r <= 63
  ;! keeps %c >= 0
  ;! keeps 64*%r >= 0
  ;! keeps 64*%r <= 4032
  ;! keeps %c <= 63
  ;! keeps %first <= 64*%r
  ;! keeps 64*%r <= %first
  ;! left 0 5679-90*%c
  br label %set
lives:
  ;! keeps %r >= 0
  ;! keeps %r <= 63
  ;! keeps %c >= 0
  ;! keeps 64*%r >= 0
  ;! keeps 64*%r <= 4032
  ;! keeps %c <= 63
  ;! keeps %first <= 64*%r
  ;! keeps 64*%r <= %first
  ;! left 0 5679-90*%c
  br label %set
set:
  ;! keeps %r >= 0
  ;! keeps %r <= 63
  ;! keeps %c >= 0
  ;! keeps %first >= 0
  ;! keeps %first <= 4032
  ;! keeps %c <= 63
  ;! keeps %first <= 64*%r
  ;! keeps 64*%r <= %first
  ;! left 0 5678-90*%c
  %v = phi i64 [ 0, %count ], [ %x, %stays ], [ 1, %lives ]
  %at = add nsw i64 %first, %c
  ;! shows %at >= %first
  ;! shows %at <= %first+63
  %q = getelementptr inbounds i64, ptr %next, i64 %at
  store i64 %v, ptr %q
  %c1 = add nsw i64 %c, 1
  br label %head
done:
  ;! left 0 1
  ret void
}

define void @step(ptr noalias dereferenceable(32768) %now, ptr noalias dereferenceable(32768) %next) {
  ;! reads %now 0 4096
  ;! writes %next 0 4096
  ;! budget 0 369542
entry:
  ;! left 0 369542
  %s = call token @llvm.syncregion.start()
  br label %head
head:
  ;! keeps %r >= 0
  ;! keeps %r <= 64
  ;! pending %s reads %now 0 4096
  ;! pending %s writes %next 0 64*%r
  ;! left 0 369540-5774*%r
  %r = phi i64 [ 0, %entry ], [ %r1, %after ]
  %more = icmp slt i64 %r, 64
  br i1 %more, label %fork, label %wait
fork:
  ;! keeps %r >= 0
  ;! keeps %r <= 63
  ;! pending %s reads %now 0 4096
  ;! pending %s writes %next 0 64*%r
  ;! left 0 369538-5774*%r
  detach within %s, label %one, label %after
one:
  ;! keeps %r >= 0
  ;! keeps %r <= 63
  ;! left 0 5769
  ;! foot reads %now 0 4096
  ;! foot writes %next 64*%r 64*%r+64
  call void @row(ptr %now, ptr %next, i64 %r)
  reattach within %s, label %after
after:
  ;! keeps %r >= 0
  ;! keeps %r <= 63
  ;! pending %s reads %now 0 4096
  ;! pending %s writes %next 0 64*%r
  ;! pending %s writes %next 64*%r 64*%r+64
  ;! left 0 363768-5774*%r
  %r1 = add nsw i64 %r, 1
  br label %head
wait:
  ;! pending %s reads %now 0 4096
  ;! pending %s writes %next 0 64*%r
  ;! left 0 2
  sync within %s, label %done
done:
  ;! left 0 1
  ret void
}

define i64 @living() {
  ;! reads @now 0 4096
  ;! budget 0 28676
entry:
  ;! left 0 28676
  br label %head
head:
  ;! keeps %i >= 0
  ;! keeps %i <= 4096
  ;! left 0 28675-7*%i
  %i = phi i64 [ 0, %entry ], [ %i1, %body ]
  %sum = phi i64 [ 0, %entry ], [ %sum1, %body ]
  %more = icmp slt i64 %i, 4096
  br i1 %more, label %body, label %done
body:
  ;! keeps %i >= 0
  ;! keeps %i <= 4095
  ;! left 0 28673-7*%i
  %p = getelementptr inbounds i64, ptr @now, i64 %i
  %x = load i64, ptr %p
  %sum1 = add i64 %sum, %x
  %i1 = add nsw i64 %i, 1
  br label %head
done:
  ;! left 0 1
  ret i64 %sum
}

define i64 @main(i64 %t) {
  ;! requires %t >= 0
  ;! requires %t <= 100
  ;! writes @now 0 4096
  ;! writes @next 0 4096
  ;! budget 0 73937681
entry:
  ;! left 0 739090*%t+28681
  br label %head
head:
  ;! keeps %t <= 100
  ;! keeps %i >= 0
  ;! keeps %i <= %t
  ;! left 0 739090*%t+28680-739090*%i
  %i = phi i64 [ 0, %entry ], [ %i1, %body ]
  %more = icmp slt i64 %i, %t
  br i1 %more, label %body, label %done
body:
  ;! keeps %t <= 100
  ;! keeps %i >= 0
  ;! keeps %i+1 <= %t
  ;! left 0 739090*%t+28678-739090*%i
  call void @step(ptr @now, ptr @next)
  call void @step(ptr @next, ptr @now)
  %i1 = add nsw i64 %i, 1
  br label %head
done:
  ;! left 0 28678
  %n = call i64 @living()
  ret i64 %n
}
