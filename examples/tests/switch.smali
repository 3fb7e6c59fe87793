# A switch with two cases, and a payload that stands behind the last line.
.class public La/Main;
.super Landroid/app/Activity;
.method public onCreate(Landroid/os/Bundle;)V
    .registers 3
    const/4 v0, 0x0
    packed-switch v0, :cases
    nop
    :case
    return-void
    :cases
    .packed-switch 0x0
        :case
        :case
    .end packed-switch
.end method
