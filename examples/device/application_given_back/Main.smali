# Asks the library for the object of the application, and has it send the device id.
.class public La/Main;
.super Landroid/app/Activity;

.method public constructor <init>()V
    .registers 1
    invoke-direct {p0}, Landroid/app/Activity;-><init>()V
    return-void
.end method

.method public onCreate(Landroid/os/Bundle;)V
    .registers 4
    invoke-static {}, Lvendor/Device;->id()Ljava/lang/String;
    move-result-object v0
    invoke-virtual {p0}, La/Main;->getApplication()Landroid/app/Application;
    move-result-object v1
    check-cast v1, La/App;
    invoke-virtual {v1, v0}, La/App;->send(Ljava/lang/Object;)V
    return-void
.end method
