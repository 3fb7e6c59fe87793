# Gets an object of the app back from a library object, and sends what stands in its field.
.class public La/Main;
.super Landroid/app/Activity;

.method public constructor <init>()V
    .registers 1
    invoke-direct {p0}, Landroid/app/Activity;-><init>()V
    return-void
.end method

.method public onCreate(Landroid/os/Bundle;)V
    .registers 4
    invoke-static {}, Lvendor/Device;->id()Ljava/lang/String;
    move-result-object v0
    new-instance v1, La/Box;
    invoke-direct {v1}, La/Box;-><init>()V
    iput-object v0, v1, La/Box;->id:Ljava/lang/String;
    new-instance v0, Ljava/lang/ref/WeakReference;
    invoke-direct {v0, v1}, Ljava/lang/ref/WeakReference;-><init>(Ljava/lang/Object;)V
    invoke-virtual {v0}, Ljava/lang/ref/WeakReference;->get()Ljava/lang/Object;
    move-result-object v0
    check-cast v0, La/Box;
    iget-object v0, v0, La/Box;->id:Ljava/lang/String;
    invoke-static {v0}, Lvendor/Net;->post(Ljava/lang/Object;)V
    return-void
.end method
