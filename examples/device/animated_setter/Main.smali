# Animates a property of itself, so that the library calls the method that sets it.
.class public La/Main;
.super Landroid/app/Activity;

.method public constructor <init>()V
    .registers 1
    invoke-direct {p0}, Landroid/app/Activity;-><init>()V
    return-void
.end method

.method public onCreate(Landroid/os/Bundle;)V
    .registers 5
    const-string v0, "size"
    const/4 v1, 1
    filled-new-array {v1, v1}, [I
    move-result-object v1
    invoke-static {p0, v0, v1}, Landroid/animation/ObjectAnimator;->ofInt(Ljava/lang/Object;Ljava/lang/String;[I)Landroid/animation/ObjectAnimator;
    move-result-object v0
    invoke-virtual {v0}, Landroid/animation/ObjectAnimator;->start()V
    return-void
.end method

.method public setSize(I)V
    .registers 3
    invoke-static {}, Lvendor/Device;->id()Ljava/lang/String;
    move-result-object v0
    invoke-static {v0}, Lvendor/Net;->post(Ljava/lang/Object;)V
    return-void
.end method
