; The primes below 64. For each step from 2 to 7 a child adds 1 to the cells of its multiples; what stays 0 is prime. Children that add
; may share cells. The result is the number of primes.
@hits = global [64 x i64] zeroinitializer

define void @strike(ptr noalias dereferenceable(512) %hits, i64 %step) {
  ;! requires %step >= 2
  ;! requires %step <= 7
  ;! adds %hits 0 64
  ;! budget 0 203
entry:
  ;! left 0 215-6*%step
  %from = add nsw i64 %step, %step
  ;! shows 2*%step >= 4
  ;! shows 2*%step <= 14
  ;! shows %from >= 4
  ;! shows %from <= 14
  br label %head
head:
  ;! keeps %step >= 2
  ;! keeps %step <= 7
  ;! keeps %j >= 4
  ;! keeps %j <= 70
  ;! left 0 213-3*%j
  %j = phi i64 [ %from, %entry ], [ %k, %body ]
  %more = icmp sle i64 %j, 63
  br i1 %more, label %body, label %done
body:
  ;! keeps %step >= 2
  ;! keeps %step <= 7
  ;! keeps %j >= 4
  ;! keeps %j <= 63
  ;! left 0 217-3*%j-3*%step
  %p = getelementptr inbounds i64, ptr %hits, i64 %j
  atomicrmw add ptr %p, i64 1 seq_cst
  %k = add nsw i64 %j, %step
  ;! shows %k >= %j
  ;! shows %k >= 4
  ;! shows %k <= %j+7
  ;! shows %k <= 70
  br label %head
done:
  ;! left 0 1
  ret void
}

define i64 @main() {
  ;! writes @hits 0 64
  ;! budget 0 1890
entry:
  ;! left 0 1890
  %s = call token @llvm.syncregion.start()
  store [64 x i64] zeroinitializer, ptr @hits
  br label %head
head:
  ;! keeps %step >= 2
  ;! keeps %step <= 8
  ;! pending %s adds @hits 0 64
  ;! left 0 2307-210*%step
  %step = phi i64 [ 2, %entry ], [ %step1, %next ]
  %more = icmp slt i64 %step, 8
  br i1 %more, label %fork, label %done
fork:
  ;! keeps %step >= 2
  ;! keeps %step <= 7
  ;! pending %s adds @hits 0 64
  ;! left 0 2305-210*%step
  detach within %s, label %one, label %next
one:
  ;! keeps %step >= 2
  ;! keeps %step <= 7
  ;! left 0 205
  ;! foot adds @hits 0 64
  call void @strike(ptr @hits, i64 %step)
  reattach within %s, label %next
next:
  ;! keeps %step >= 2
  ;! keeps %step <= 7
  ;! pending %s adds @hits 0 64
  ;! left 0 2099-210*%step
  %step1 = add nsw i64 %step, 1
  br label %head
done:
  ;! pending %s adds @hits 0 64
  ;! left 0 625
  sync within %s, label %count
count:
  ;! left 0 624
  br label %each
each:
  ;! keeps %i >= 2
  ;! keeps %i <= 64
  ;! left 0 643-10*%i
  %i = phi i64 [ 2, %count ], [ %i1, %join ]
  %primes = phi i64 [ 0, %count ], [ %primes1, %join ]
  %some = icmp slt i64 %i, 64
  br i1 %some, label %look, label %out
look:
  ;! keeps %i >= 2
  ;! keeps %i <= 63
  ;! left 0 641-10*%i
  %p = getelementptr inbounds i64, ptr @hits, i64 %i
  %x = load i64, ptr %p
  %clear = icmp eq i64 %x, 0
  br i1 %clear, label %prime, label %join
prime:
  ;! keeps %i >= 2
  ;! keeps %i <= 63
  ;! left 0 637-10*%i
  br label %join
join:
  ;! keeps %i >= 2
  ;! keeps %i <= 63
  ;! left 0 636-10*%i
  %one.more = phi i64 [ 0, %look ], [ 1, %prime ]
  %primes1 = add i64 %primes, %one.more
  %i1 = add nsw i64 %i, 1
  br label %each
out:
  ;! left 0 1
  ret i64 %primes
}
