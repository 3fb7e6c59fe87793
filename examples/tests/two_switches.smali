# Two switches, each with a payload of its own. Three units behind the case stands the middle of an instruction.
.class public La/Main;
.super Landroid/app/Activity;
.method public onCreate(Landroid/os/Bundle;)V
    .registers 4
    const/4 v0, 0x0
    packed-switch v0, :first
    packed-switch v0, :second
    :case
    nop
    nop
    const v1, 0x12345678
    return-void
    :first
    .packed-switch 0x0
        :case
        :case
    .end packed-switch
    :second
    .packed-switch 0x0
        :case
        :case
    .end packed-switch
.end method
