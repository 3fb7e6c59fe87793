# Calls the method that it has from an interface.
.class public La/Main;
.super Landroid/app/Activity;
.implements La/Sender;

.method public constructor <init>()V
    .registers 1
    invoke-direct {p0}, Landroid/app/Activity;-><init>()V
    return-void
.end method

.method public onCreate(Landroid/os/Bundle;)V
    .registers 3
    invoke-static {}, Lvendor/Device;->id()Ljava/lang/String;
    move-result-object v0
    invoke-interface {p0, v0}, La/Sender;->send(Ljava/lang/Object;)V
    return-void
.end method
