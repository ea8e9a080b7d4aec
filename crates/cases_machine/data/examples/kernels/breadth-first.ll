; Distances from node 0 in a graph of 1,024 nodes and up to 4,096 edges, a level at a time: those of node v lead to the nodes
; @edges[@first[v]] to before @edges[@first[v+1]]. What is not reached has distance -1. The result is the greatest distance. In the first
; half of a round a child follows the edges of 128 nodes and adds to @reached, in the second it settles 128 nodes.
; Of its annotations an author wrote 71, and `tapirvm annotate` the others.
@first = global [1025 x i64] zeroinitializer
@edges = global [4096 x i64] zeroinitializer
@distance = global [1024 x i64] zeroinitializer
@reached = global [1024 x i64] zeroinitializer
@news = global [1 x i64] zeroinitializer

define void @follow(i64 %lo, i64 %round) {
  ;! requires %lo >= 0
  ;! requires %lo <= 896
  ;! reads @first 0 1025
  ;! reads @edges 0 4096
  ;! reads @distance 0 1024
  ;! adds @reached 0 1024
  ;! budget 0 39557
entry:
  ;! left 0 39557
  %hi = add nsw i64 %lo, 128
  br label %nodes
nodes:
  ;! keeps %lo >= 0
  ;! keeps %lo <= 896
  ;! keeps %hi <= %lo+128
  ;! keeps %lo+128 <= %hi
  ;! keeps %v >= %lo
  ;! keeps %v <= %hi
  ;! keeps %e >= 0
  ;! keeps %e <= 4096
  ;! left 0 21*%hi+36867-21*%v-9*%e
  %v = phi i64 [ %lo, %entry ], [ %v1, %next ]
  %e = phi i64 [ 0, %entry ], [ %e3, %next ]
  %more = icmp slt i64 %v, %hi
  br i1 %more, label %node, label %done
node:
  ;! keeps %lo >= 0
  ;! keeps %lo <= %v
  ;! keeps %e >= 0
  ;! keeps %e <= 4096
  ;! keeps %hi <= 1024
  ;! keeps %v+1 <= %hi
  ;! keeps %hi <= %lo+128
  ;! keeps %lo+128 <= %hi
  ;! left 0 21*%hi+36865-9*%e-21*%v
  %pd = getelementptr inbounds i64, ptr @distance, i64 %v
  %d = load i64, ptr %pd
  %now = icmp eq i64 %d, %round
  br i1 %now, label %begin, label %next
begin:
  ;! keeps %lo >= 0
  ;! keeps %lo <= %v
  ;! keeps %e >= 0
  ;! keeps %e <= 4096
  ;! keeps %hi <= 1024
  ;! keeps %v+1 <= %hi
  ;! keeps %v >= 0
  ;! keeps %d <= %round
  ;! keeps %round <= %d
  ;! keeps %hi <= %lo+128
  ;! keeps %lo+128 <= %hi
  ;! left 0 21*%hi+36861-9*%e-21*%v
  %pf = getelementptr inbounds i64, ptr @first, i64 %v
  %from = load i64, ptr %pf
  %v2 = add nsw i64 %v, 1
  ;! shows %v2 <= %hi
  %pn = getelementptr inbounds i64, ptr @first, i64 %v2
  %to = load i64, ptr %pn
  %rises = icmp sge i64 %from, %e
  br i1 %rises, label %within, label %next
within:
  ;! keeps %lo >= 0
  ;! keeps %lo <= 896
  ;! keeps %lo <= %v
  ;! keeps %e >= 0
  ;! keeps %e <= 4096
  ;! keeps %v+1 <= %hi
  ;! keeps %d <= %round
  ;! keeps %round <= %d
  ;! keeps %v2 <= %hi
  ;! keeps %e <= %from
  ;! keeps %hi <= %lo+128
  ;! keeps %lo+128 <= %hi
  ;! left 0 21*%hi+36854-9*%e-21*%v
  %ends = icmp sle i64 %to, 4096
  br i1 %ends, label %ordered, label %next
ordered:
  ;! keeps %lo >= 0
  ;! keeps %lo <= 896
  ;! keeps %lo <= %v
  ;! keeps %e >= 0
  ;! keeps %e <= 4096
  ;! keeps %v+1 <= %hi
  ;! keeps %d <= %round
  ;! keeps %round <= %d
  ;! keeps %v2 <= %hi
  ;! keeps %e <= %from
  ;! keeps %to <= 4096
  ;! keeps %hi <= %lo+128
  ;! keeps %lo+128 <= %hi
  ;! left 0 21*%hi+36852-21*%v-9*%e
  %falls = icmp sgt i64 %from, %to
  br i1 %falls, label %next, label %follow
follow:
  ;! keeps %lo >= 0
  ;! keeps %lo <= 896
  ;! keeps %lo <= %v
  ;! keeps %e >= 0
  ;! keeps %v+1 <= %hi
  ;! keeps %d <= %round
  ;! keeps %round <= %d
  ;! keeps %v2 <= %hi
  ;! keeps %e <= %from
  ;! keeps %to <= 4096
  ;! keeps %from <= %to
  ;! keeps %hi <= %lo+128
  ;! keeps %lo+128 <= %hi
  ;! keeps %f >= %e
  ;! keeps %f <= 4096
  ;! left 0 21*%hi+36850-21*%v-9*%f
  %f = phi i64 [ %from, %ordered ], [ %f1, %edge ]
  %some = icmp slt i64 %f, %to
  br i1 %some, label %edge, label %next
edge:
  ;! keeps %lo >= 0
  ;! keeps %lo <= 896
  ;! keeps %lo <= %v
  ;! keeps %e >= 0
  ;! keeps %e <= %f
  ;! keeps %f <= 4096
  ;! keeps %v+1 <= %hi
  ;! keeps %d <= %round
  ;! keeps %round <= %d
  ;! keeps %v2 <= %hi
  ;! keeps %e <= %from
  ;! keeps %to <= 4096
  ;! keeps %from <= %to
  ;! keeps %f+1 <= %to
  ;! keeps %hi <= %lo+128
  ;! keeps %lo+128 <= %hi
  ;! left 0 21*%hi+36848-9*%f-21*%v
  ;! shows %f+1 <= 4096
  %pe = getelementptr inbounds i64, ptr @edges, i64 %f
  %u = load i64, ptr %pe
  %u1 = and i64 %u, 1023
  %pr = getelementptr inbounds i64, ptr @reached, i64 %u1
  atomicrmw add ptr %pr, i64 1 seq_cst
  %f1 = add nsw i64 %f, 1
  br label %follow
next:
  ;! keeps %lo >= 0
  ;! keeps %lo <= %v
  ;! keeps %hi <= 1024
  ;! keeps %v+1 <= %hi
  ;! keeps %hi <= %lo+128
  ;! keeps %lo+128 <= %hi
  ;! keeps %e3 >= 0
  ;! keeps %e3 <= 4096
  ;! left 0 21*%hi+36848-9*%e3-21*%v
  %e3 = phi i64 [ %e, %node ], [ %e, %begin ], [ %e, %within ], [ %e, %ordered ], [ %f, %follow ]
  %v1 = add nsw i64 %v, 1
  br label %nodes
done:
  ;! left 0 1
  ret void
}

define void @settle(i64 %lo, i64 %round) {
  ;! requires %lo >= 0
  ;! requires %lo <= 896
  ;! writes @distance %lo %lo+128
  ;! writes @reached %lo %lo+128
  ;! adds @news 0 1
  ;! budget 0 2183
entry:
  ;! left 0 2183
  %hi = add nsw i64 %lo, 128
  %then = add i64 %round, 1
  br label %nodes
nodes:
  ;! keeps %lo >= 0
  ;! keeps %lo <= 896
  ;! keeps %hi <= %lo+128
  ;! keeps %lo+128 <= %hi
  ;! keeps %v >= %lo
  ;! keeps %v <= %hi
  ;! left 0 17*%hi+4-17*%v
  %v = phi i64 [ %lo, %entry ], [ %v1, %next ]
  %count = phi i64 [ 0, %entry ], [ %count1, %next ]
  %more = icmp slt i64 %v, %hi
  br i1 %more, label %node, label %done
node:
  ;! keeps %lo >= 0
  ;! keeps %lo <= %v
  ;! keeps %hi <= 1024
  ;! keeps %v+1 <= %hi
  ;! keeps %hi <= %lo+128
  ;! keeps %lo+128 <= %hi
  ;! left 0 17*%hi-17*%v+2
  %pr = getelementptr inbounds i64, ptr @reached, i64 %v
  %times = load i64, ptr %pr
  store i64 0, ptr %pr
  %hit = icmp sgt i64 %times, 0
  br i1 %hit, label %look, label %next
look:
  ;! keeps %lo >= 0
  ;! keeps %lo <= %v
  ;! keeps %hi <= 1024
  ;! keeps %v+1 <= %hi
  ;! keeps %hi <= %lo+128
  ;! keeps %lo+128 <= %hi
  ;! left 0 17*%hi-17*%v-3
  %pd = getelementptr inbounds i64, ptr @distance, i64 %v
  %d = load i64, ptr %pd
  %fresh = icmp slt i64 %d, 0
  br i1 %fresh, label %set, label %next
set:
  ;! keeps %lo >= 0
  ;! keeps %lo <= %v
  ;! keeps %hi <= 1024
  ;! keeps %v+1 <= %hi
  ;! keeps %hi <= %lo+128
  ;! keeps %lo+128 <= %hi
  ;! left 0 17*%hi-17*%v-7
  %ps = getelementptr inbounds i64, ptr @distance, i64 %v
  store i64 %then, ptr %ps
  %count2 = add i64 %count, 1
  br label %next
next:
  ;! keeps %lo >= 0
  ;! keeps %lo <= %v
  ;! keeps %hi <= 1024
  ;! keeps %v+1 <= %hi
  ;! keeps %hi <= %lo+128
  ;! keeps %lo+128 <= %hi
  ;! left 0 17*%hi-17*%v-11
  %count1 = phi i64 [ %count, %node ], [ %count, %look ], [ %count2, %set ]
  %v1 = add nsw i64 %v, 1
  br label %nodes
done:
  ;! left 0 2
  atomicrmw add ptr @news, i64 %count seq_cst
  ret void
}

define i64 @level(i64 %round) {
  ;! reads @first 0 1025
  ;! reads @edges 0 4096
  ;! writes @distance 0 1024
  ;! writes @reached 0 1024
  ;! writes @news 0 1
  ;! budget 0 335884
entry:
  ;! left 0 335884
  %s = call token @llvm.syncregion.start()
  store i64 0, ptr @news
  br label %spread
spread:
  ;! keeps %i >= 0
  ;! keeps %i <= 1024
  ;! pending %s reads @first 0 1025
  ;! pending %s reads @edges 0 4096
  ;! pending %s reads @distance 0 1024
  ;! pending %s adds @reached 0 1024
  ;! left 0 335881-310*%i
  %i = phi i64 [ 0, %entry ], [ %i1, %spread.next ]
  %more = icmp sle i64 %i, 896
  br i1 %more, label %spread.fork, label %wait
spread.fork:
  ;! keeps %i >= 0
  ;! keeps %i <= 896
  ;! pending %s reads @first 0 1025
  ;! pending %s reads @edges 0 4096
  ;! pending %s reads @distance 0 1024
  ;! pending %s adds @reached 0 1024
  ;! left 0 335763-310*%i
  detach within %s, label %spread.child, label %spread.next
spread.child:
  ;! keeps %i >= 0
  ;! keeps %i <= 896
  ;! left 0 39559
  ;! foot reads @first 0 1025
  ;! foot reads @edges 0 4096
  ;! foot reads @distance 0 1024
  ;! foot adds @reached 0 1024
  call void @follow(i64 %i, i64 %round)
  reattach within %s, label %spread.next
spread.next:
  ;! keeps %i >= 0
  ;! keeps %i <= 896
  ;! pending %s reads @first 0 1025
  ;! pending %s reads @edges 0 4096
  ;! pending %s reads @distance 0 1024
  ;! pending %s adds @reached 0 1024
  ;! left 0 296203-310*%i
  %i1 = add nsw i64 %i, 128
  br label %spread
wait:
  ;! keeps %i <= 1024
  ;! keeps %i >= 897
  ;! pending %s reads @first 0 1025
  ;! pending %s reads @edges 0 4096
  ;! pending %s reads @distance 0 1024
  ;! pending %s adds @reached 0 1024
  ;! left 0 18439
  sync within %s, label %between
between:
  ;! keeps %i <= 1024
  ;! keeps %i >= 897
  ;! left 0 18438
  br label %settle
settle:
  ;! keeps %i <= 1024
  ;! keeps %i >= 897
  ;! keeps %j >= 0
  ;! keeps %j <= 1024
  ;! pending %s writes @distance 0 %j
  ;! pending %s writes @reached 0 %j
  ;! pending %s adds @news 0 1
  ;! left 0 18437-18*%j
  %j = phi i64 [ 0, %between ], [ %j1, %settle.next ]
  %some = icmp sle i64 %j, 896
  br i1 %some, label %settle.fork, label %settled
settle.fork:
  ;! keeps %i <= 1024
  ;! keeps %j >= 0
  ;! keeps %i >= 897
  ;! keeps %j <= 896
  ;! pending %s writes @distance 0 %j
  ;! pending %s writes @reached 0 %j
  ;! pending %s adds @news 0 1
  ;! left 0 18321-18*%j
  detach within %s, label %settle.child, label %settle.next
settle.child:
  ;! keeps %j >= 0
  ;! keeps %j <= 896
  ;! left 0 2185
  ;! foot writes @distance %j %j+128
  ;! foot writes @reached %j %j+128
  ;! foot adds @news 0 1
  call void @settle(i64 %j, i64 %round)
  reattach within %s, label %settle.next
settle.next:
  ;! keeps %i <= 1024
  ;! keeps %j >= 0
  ;! keeps %i >= 897
  ;! keeps %j <= 896
  ;! pending %s writes @distance 0 %j
  ;! pending %s writes @reached 0 %j
  ;! pending %s adds @news 0 1
  ;! pending %s writes @distance %j %j+128
  ;! pending %s writes @reached %j %j+128
  ;! left 0 16135-18*%j
  %j1 = add nsw i64 %j, 128
  br label %settle
settled:
  ;! pending %s writes @distance 0 %j
  ;! pending %s writes @reached 0 %j
  ;! pending %s adds @news 0 1
  ;! left 0 3
  sync within %s, label %out
out:
  ;! left 0 2
  %x = load i64, ptr @news
  ret i64 %x
}

define void @clear() {
  ;! writes @distance 0 1024
  ;! writes @reached 0 1024
  ;! budget 0 6150
entry:
  ;! left 0 6150
  store [1024 x i64] zeroinitializer, ptr @reached
  br label %head
head:
  ;! keeps %i >= 0
  ;! keeps %i <= 1024
  ;! left 0 6148-6*%i
  %i = phi i64 [ 0, %entry ], [ %i1, %body ]
  %more = icmp slt i64 %i, 1024
  br i1 %more, label %body, label %done
body:
  ;! keeps %i >= 0
  ;! keeps %i <= 1023
  ;! left 0 6146-6*%i
  %p = getelementptr inbounds i64, ptr @distance, i64 %i
  store i64 -1, ptr %p
  %i1 = add nsw i64 %i, 1
  br label %head
done:
  ;! left 0 2
  store i64 0, ptr @distance
  ret void
}

define i64 @main() {
  ;! reads @first 0 1025
  ;! reads @edges 0 4096
  ;! writes @distance 0 1024
  ;! writes @reached 0 1024
  ;! writes @news 0 1
  ;! budget 0 343958539
entry:
  ;! left 0 343958539
  call void @clear()
  br label %levels
levels:
  ;! keeps %round >= 0
  ;! keeps %round <= 1024
  ;! left 0 343952387-335891*%round
  %round = phi i64 [ 0, %entry ], [ %round1, %again ]
  %more = icmp slt i64 %round, 1024
  br i1 %more, label %level, label %done
level:
  ;! keeps %round >= 0
  ;! keeps %round <= 1023
  ;! left 0 343952385-335891*%round
  %fresh = call i64 @level(i64 %round)
  %some = icmp sgt i64 %fresh, 0
  br i1 %some, label %again, label %done
again:
  ;! keeps %round >= 0
  ;! keeps %round <= 1023
  ;! left 0 343616498-335891*%round
  %round1 = add nsw i64 %round, 1
  br label %levels
done:
  ;! left 0 1
  ret i64 %round
}
