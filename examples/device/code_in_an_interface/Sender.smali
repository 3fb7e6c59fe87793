# An interface with a method that has code.
.class public interface abstract La/Sender;
.super Ljava/lang/Object;

.method public send(Ljava/lang/Object;)V
    .registers 2
    invoke-static {p1}, Lvendor/Net;->post(Ljava/lang/Object;)V
    return-void
.end method
