# Posts what it was made with, when the library runs it.
.class public La/Later;
.super Ljava/lang/Object;
.implements Ljava/lang/Runnable;

.field private id:Ljava/lang/String;

.method public constructor <init>(Ljava/lang/String;)V
    .registers 2
    invoke-direct {p0}, Ljava/lang/Object;-><init>()V
    iput-object p1, p0, La/Later;->id:Ljava/lang/String;
    return-void
.end method

.method public run()V
    .registers 2
    iget-object v0, p0, La/Later;->id:Ljava/lang/String;
    invoke-static {v0}, Lvendor/Net;->post(Ljava/lang/Object;)V
    return-void
.end method
