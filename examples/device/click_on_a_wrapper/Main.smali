# Makes a layout with another context; its clicks come to that one.
.class public La/Main;
.super Landroid/app/Activity;

.method public constructor <init>()V
    .registers 1
    invoke-direct {p0}, Landroid/app/Activity;-><init>()V
    return-void
.end method

.method public onCreate(Landroid/os/Bundle;)V
    .registers 5
    new-instance v2, La/Wrap;
    invoke-direct {v2, p0}, La/Wrap;-><init>(Landroid/content/Context;)V
    const/high16 v0, 0x7f030000
    const/4 v1, 0
    invoke-static {v2, v0, v1}, Landroid/view/View;->inflate(Landroid/content/Context;ILandroid/view/ViewGroup;)Landroid/view/View;
    move-result-object v0
    invoke-virtual {v0}, Landroid/view/View;->performClick()Z
    return-void
.end method
