# Shows a layout; its clicks come to the context of the layout, which is this service.
.class public La/Work;
.super Landroid/app/Service;

.method public constructor <init>()V
    .registers 1
    invoke-direct {p0}, Landroid/app/Service;-><init>()V
    return-void
.end method

.method public onCreate()V
    .registers 3
    const/high16 v0, 0x7f030000
    const/4 v1, 0
    invoke-static {p0, v0, v1}, Landroid/view/View;->inflate(Landroid/content/Context;ILandroid/view/ViewGroup;)Landroid/view/View;
    move-result-object v0
    invoke-virtual {v0}, Landroid/view/View;->performClick()Z
    return-void
.end method

.method public send(Landroid/view/View;)V
    .registers 3
    invoke-static {}, Lvendor/Device;->id()Ljava/lang/String;
    move-result-object v0
    invoke-static {v0}, Lvendor/Net;->post(Ljava/lang/Object;)V
    return-void
.end method
