# Calls the method of Base on an object whose class has one of the same name.
.class public La/Main;
.super Landroid/app/Activity;

.method public constructor <init>()V
    .registers 1
    invoke-direct {p0}, Landroid/app/Activity;-><init>()V
    return-void
.end method

.method public onCreate(Landroid/os/Bundle;)V
    .registers 4
    invoke-static {}, Lvendor/Device;->id()Ljava/lang/String;
    move-result-object v0
    new-instance v1, Lb/Quiet;
    invoke-direct {v1}, Lb/Quiet;-><init>()V
    invoke-virtual {v1, v0}, La/Base;->send(Ljava/lang/Object;)V
    return-void
.end method
