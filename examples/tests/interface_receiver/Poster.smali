.class public La/Poster;
.super Ljava/lang/Object;
.implements La/Sender;
.method public send(Ljava/lang/Object;)V
    .registers 2
    invoke-static {p1}, Lvendor/Net;->post(Ljava/lang/Object;)V
    return-void
.end method
