.class public La/Sender;
.super Ljava/lang/Object;
.method public static send(Ljava/lang/Object;)V
    .registers 1
    invoke-static {p0}, Lvendor/Net;->post(Ljava/lang/Object;)V
    return-void
.end method
