.class public Le/Marked;
.super Ljava/lang/Object;
.source "Marked.java"

.annotation runtime Le/Marks;
    value = 0x3
.end annotation

.field static final answer:I = 0x2a

.method public debugged(I)V
    .registers 3
    .param p1, "x"
    .prologue
    .line 7
    const/4 v0, 0x1
    .local v0, "y":I
    .line 8
    return-void
    .end local v0
.end method
